/* The lines of `fp2 verify` and of `fp2 run --gauge`, made by the calls of fip_host.h. No C library is needed. */
#ifndef FIP_LINES_H
#define FIP_LINES_H

#include "fip_host.h"

/* A text, and how many bytes there is room for. What doesn't fit is left out. */
typedef struct FipText {
    char *bytes;
    size_t room, length;
} FipText;

/* A run that is wanted: an entry with the text of its arguments, and what it may take. */
typedef struct FipWanted {
    const char *entry;
    size_t entry_size;
    const char *input;
    size_t input_size;
    uint64_t calls, frames;
    size_t words;
} FipWanted;

void fip_put(FipText *text, const char *bytes, size_t size);
void fip_put_word(FipText *text, const char *word);
void fip_put_number(FipText *text, uint64_t number);
/* The line of a verdict. */
void fip_put_verdict(FipText *text, const FipVerdict *verdict);
/* Runs what is wanted in a new store; the lines of its results and its gauge, or the line of why there are none. The
 * status is that of `fp2 run`, and 12 where there is no such entry. */
uint32_t fip_put_run(FipText *text, FipMachine *machine, const FipWanted *wanted);

#endif
