/* The code files and inputs that the image carries; the assembler finds them in the folder that it is given. */
    .section .rodata
    .macro file name, path
    .globl \name, \name\()_end
\name:
    .incbin "\path"
\name\()_end:
    .endm
    file rev_code, "rev.code"
    file rev_input, "rev.txt"
    file redblack_code, "redblack.code"
    file redblack_input, "redblack.txt"

    .section .note.GNU-stack, "", @progbits
