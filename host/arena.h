/* What a host may ask of host/arena.c. */
#ifndef FIP_ARENA_H
#define FIP_ARENA_H

#include <stddef.h>

/* From now on each request for memory is refused. */
void fip_arena_close(void);
/* The most bytes of the arena that were in use. */
size_t fip_arena_peak(void);
/* The number of requests, also of those that were refused. */
size_t fip_arena_requests(void);

#endif
