/* Stands between a host and the library (ld's --wrap), and ends the program where a call asks for memory that it should
 * not ask for: those that ask for none, and fip_store and fip_start beyond what fip_need says. */
#include "fip_host.h"
#include <stdio.h>
#include <stdlib.h>

struct tried {
    bool ok;
    void *at;
};

struct tried __real_rattle_alloc(size_t size, size_t alignment);
struct tried __real_rattle_realloc(void *block, size_t kept, size_t size, size_t alignment);

static size_t requests, asked;

/* A block of so many bytes, with its header. */
static size_t block_of(size_t size) {
    return (size + 15) / 16 * 16 + 16;
}

struct tried __wrap_rattle_alloc(size_t size, size_t alignment) {
    requests++;
    asked += block_of(size);
    return __real_rattle_alloc(size, alignment);
}

struct tried __wrap_rattle_realloc(void *block, size_t kept, size_t size, size_t alignment) {
    requests++;
    if (size > kept) asked += block_of(size) - block_of(kept);
    return __real_rattle_realloc(block, kept, size, alignment);
}

static void refuse(const char *call, size_t found, size_t allowed) {
    fprintf(stderr, "%s asked for %zu where it may for %zu\n", call, found, allowed);
    exit(3);
}

/* A call that asks for no memory, by its name, its parameters and its arguments. */
#define QUIET(result, call, parameters, arguments)                               \
    result __real_##call parameters;                                             \
    result __wrap_##call parameters {                                            \
        size_t before = requests;                                                \
        result found = __real_##call arguments;                                  \
        if (requests != before) refuse(#call, requests - before, 0);             \
        return found;                                                            \
    }

QUIET(uint32_t, fip_cell, (FipMachine * m, uint32_t tag, const uint64_t *fields, size_t count, uint64_t *word),
      (m, tag, fields, count, word))
QUIET(uint32_t, fip_release, (FipMachine * m, uint64_t word), (m, word))
QUIET(size_t, fip_count, (FipMachine * m, size_t size), (m, size))
QUIET(uint32_t, fip_step, (FipMachine * m, FipEnd *end), (m, end))
QUIET(uint32_t, fip_run, (FipMachine * m, uint64_t calls, FipEnd *end), (m, calls, end))
QUIET(uint32_t, fip_keep, (FipMachine * m, size_t *numbers, size_t room, size_t *count), (m, numbers, room, count))
QUIET(uint32_t, fip_forget, (FipMachine * m, size_t number), (m, number))
QUIET(uint32_t, fip_result, (FipMachine * m, size_t i, uint64_t *word), (m, i, word))
QUIET(uint32_t, fip_field, (FipMachine * m, uint64_t word, size_t i, uint64_t *field), (m, word, i, field))
QUIET(uint32_t, fip_next, (FipMachine * m, uint64_t word, uint64_t *next), (m, word, next))
QUIET(uint32_t, fip_gauge, (FipMachine * m, size_t size, FipGauge *gauge), (m, size, gauge))

uint32_t __real_fip_store(FipMachine *m, size_t words, size_t kept);
uint32_t __real_fip_start(FipMachine *m, size_t number, const uint64_t *given, size_t count, uint64_t frames);

uint32_t __wrap_fip_store(FipMachine *m, size_t words, size_t kept) {
    FipNeed need = {0};
    uint32_t known = fip_need(m, 0, words, kept, 0, &need);
    size_t before = asked;
    uint32_t status = __real_fip_store(m, words, kept);
    if (known == FIP_OK && status == FIP_OK && asked - before > need.store) {
        refuse("fip_store", asked - before, need.store);
    }
    return status;
}

uint32_t __wrap_fip_start(FipMachine *m, size_t number, const uint64_t *given, size_t count, uint64_t frames) {
    FipNeed need = {0};
    uint32_t known = fip_need(m, number, 0, 0, frames, &need);
    size_t before = asked;
    uint32_t status = __real_fip_start(m, number, given, count, frames);
    if (known == FIP_OK && status == FIP_OK && asked - before > need.run) {
        refuse("fip_start", asked - before, need.run);
    }
    return status;
}
