/* The functions for memory of libfip_host.a over those of a C library. */
#include <stdbool.h>
#include <stdlib.h>

/* A block, or none; `at` is never null. */
struct tried {
    bool ok;
    void *at;
};

static char nothing[16];

static struct tried tried(void *block) {
    return block ? (struct tried){true, block} : (struct tried){false, nothing};
}

struct tried rattle_alloc(size_t size, size_t alignment) {
    return tried(malloc(size ? size : alignment));
}

struct tried rattle_realloc(void *block, size_t kept, size_t size, size_t alignment) {
    (void)kept;
    return tried(realloc(block, size ? size : alignment));
}

void rattle_dealloc(void *block) {
    free(block);
}
