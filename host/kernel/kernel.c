/* A kernel that verifies two codes and runs them, with no C library and no allocator but host/arena.c. It writes to the
 * first serial line what `fp2 run FILE ENTRY --gauge` prints of them. */
#include "lines.h"

extern const uint8_t rev_code[], rev_code_end[], redblack_code[], redblack_code_end[];
extern const char rev_input[], rev_input_end[], redblack_input[], redblack_input_end[];

void *memcpy(void *to, const void *from, size_t size) {
    void *start = to;
    __asm__ volatile("rep movsb" : "+D"(to), "+S"(from), "+c"(size) : : "memory");
    return start;
}

void *memmove(void *to, const void *from, size_t size) {
    char *last_to = (char *)to + size - 1;
    const char *last_from = (const char *)from + size - 1;
    if ((uintptr_t)to - (uintptr_t)from >= size) return memcpy(to, from, size);
    __asm__ volatile("std; rep movsb; cld" : "+D"(last_to), "+S"(last_from), "+c"(size) : : "memory");
    return to;
}

void *memset(void *to, int byte, size_t size) {
    void *start = to;
    __asm__ volatile("rep stosb" : "+D"(to), "+c"(size) : "a"(byte) : "memory");
    return start;
}

static uint8_t from_port(uint16_t port) {
    uint8_t byte;
    __asm__ volatile("inb %1, %0" : "=a"(byte) : "Nd"(port));
    return byte;
}

static void write_serial(const FipText *text) {
    for (size_t i = 0; i < text->length; i++) {
        while (!(from_port(0x3fd) & 0x20)) {
        }
        __asm__ volatile("outb %0, %1" : : "a"(text->bytes[i]), "Nd"((uint16_t)0x3f8));
    }
}

/* Verifies and runs one of the codes; the status of what went wrong. */
static uint32_t run(const uint8_t *code, const uint8_t *code_end, FipWanted wanted) {
    static char bytes[4096];
    FipText text = {bytes, sizeof bytes, 0};
    FipMachine machine = {0};
    FipVerdict verdict = {0};
    uint32_t status = fip_verify(code, (size_t)(code_end - code), &machine, &verdict);
    if (status == FIP_OK) {
        status = fip_put_run(&text, &machine, &wanted);
        fip_free(machine);
    } else {
        fip_put_verdict(&text, &verdict);
    }
    write_serial(&text);
    return status;
}

/* The status of the first run that went wrong. */
uint32_t kernel_main(void) {
    FipWanted rev = {"rev", 3, rev_input, (size_t)(rev_input_end - rev_input), 1000, 0, 1024};
    FipWanted redblack = {"insert", 6, redblack_input, (size_t)(redblack_input_end - redblack_input), 1000, 0, 1024};
    uint32_t status = run(rev_code, rev_code_end, rev);
    return status ? status : run(redblack_code, redblack_code_end, redblack);
}
