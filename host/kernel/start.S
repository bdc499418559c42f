/* From the loader's 32-bit mode into 64 bits: the first gigabyte mapped as it is, SSE allowed, interrupts off. */
    .section .note.pvh, "a", @note
    .align 4
    .long 4, 8, 18              /* the sizes of name and value, and the kind: where to begin in 32 bits */
    .asciz "Xen"
    .quad start32

    .section .text.start, "ax"
    .code32
start32:
    cli
    movl $pointers + 3, top_table
    movl $pages + 3, pointers
    movl $0x83, %eax            /* present, writable, of 2 MiB */
    movl $pages, %edi
    movl $512, %ecx
1:  movl %eax, (%edi)
    addl $0x200000, %eax
    addl $8, %edi
    loop 1b
    movl $top_table, %eax
    movl %eax, %cr3
    movl %cr4, %eax
    orl $0x620, %eax            /* PAE, OSFXSR, OSXMMEXCPT */
    movl %eax, %cr4
    movl $0xc0000080, %ecx      /* EFER */
    rdmsr
    orl $0x100, %eax            /* LME */
    wrmsr
    movl %cr0, %eax
    andl $~4, %eax              /* no EM */
    orl $0x80000003, %eax       /* PG, MP, PE */
    movl %eax, %cr0
    lgdt table_of_segments
    ljmp $8, $start64

    .code64
start64:
    movl $16, %eax
    movl %eax, %ds
    movl %eax, %es
    movl %eax, %ss
    movq $stack_top, %rsp
    call kernel_main
    movl $0xf4, %edx            /* qemu's device that ends it */
    outl %eax, %dx
1:  hlt
    jmp 1b

    .section .rodata
    .align 8
segments:
    .quad 0
    .quad 0x00af9a000000ffff    /* code of 64 bits */
    .quad 0x00cf92000000ffff    /* data */
table_of_segments:
    .word 23
    .long segments

    .section .bss
    .align 4096
top_table: .skip 4096
pointers: .skip 4096
pages: .skip 4096
stack: .skip 65536
stack_top:

    .section .note.GNU-stack, "", @progbits
