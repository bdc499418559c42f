/* The functions for memory of libfip_host.a over one static array, for hosts without an allocator: the first free block
 * that is large enough serves, and free blocks side by side become one. A request takes as long as there are blocks.
 *
 * FIP_ARENA_BYTES is the size of the array; docs/HOST.md says how large it must be. */
#include "arena.h"
#include <stdbool.h>

#ifndef FIP_ARENA_BYTES
#define FIP_ARENA_BYTES ((size_t)1 << 20)
#endif

/* 16 bytes. The first ones of a block have its size in such units, these among them, and whether it is used. */
struct unit {
    _Alignas(16) size_t size;
    size_t is_used;
};

/* A block, or none; `at` is never null. */
struct tried {
    bool ok;
    void *at;
};

static struct unit arena[FIP_ARENA_BYTES / sizeof(struct unit)];
static size_t peak, requests;
static bool is_closed;

void *memcpy(void *to, const void *from, size_t size);

struct tried rattle_alloc(size_t size, size_t alignment) {
    const size_t all = sizeof arena / sizeof arena[0], wanted = (size + 2 * sizeof arena[0] - 1) / sizeof arena[0];
    (void)alignment;
    requests++;
    if (arena[0].size == 0) arena[0].size = all;
    for (size_t at = 0; !is_closed && at < all; at += arena[at].size) {
        struct unit *block = arena + at;
        while (!block->is_used && at + block->size < all && !block[block->size].is_used) block->size += block[block->size].size;
        if (block->is_used || block->size < wanted) continue;
        if (block->size > wanted) block[wanted] = (struct unit){block->size - wanted, false};
        *block = (struct unit){wanted, true};
        if (at + wanted > peak) peak = at + wanted;
        return (struct tried){true, block + 1};
    }
    return (struct tried){false, arena};
}

void rattle_dealloc(void *block) {
    ((struct unit *)block - 1)->is_used = false;
}

struct tried rattle_realloc(void *block, size_t kept, size_t size, size_t alignment) {
    struct tried found = rattle_alloc(size, alignment);
    if (found.ok) {
        memcpy(found.at, block, kept < size ? kept : size);
        rattle_dealloc(block);
    }
    return found;
}

void fip_arena_close(void) {
    is_closed = true;
}

size_t fip_arena_peak(void) {
    return peak * sizeof arena[0];
}

size_t fip_arena_requests(void) {
    return requests;
}
