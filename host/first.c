/* The smallest host: runs `rev` of the code file of examples/rev.fp, and prints its result. */
#include "fip_host.h"
#include <stdio.h>

static uint8_t code[4096];
static const char input[] = "Cons(1, Cons(2, Cons(3, Nil)))\nNil\n";
static char text[256];

int main(int count, char **words) {
    FipMachine machine = {0};
    FipVerdict verdict = {0};
    FipLoaded loaded = {0};
    FipEnd end = {0};
    size_t rev = 0, length = 0;
    FILE *file = count == 2 ? fopen(words[1], "rb") : NULL;
    if (!file || fip_verify(code, fread(code, 1, sizeof code, file), &machine, &verdict) != FIP_OK) return 1;
    uint32_t status = fip_find(&machine, "rev", 3, &rev);
    if (status == FIP_OK) status = fip_store(&machine, 64, 0);
    if (status == FIP_OK) status = fip_start_text(&machine, rev, input, sizeof input - 1, 0, &loaded);
    if (status == FIP_OK) status = fip_run(&machine, 1000, &end);
    if (status == FIP_OK) status = fip_print_results(&machine, text, sizeof text, &length);
    fip_free(machine);
    return status == FIP_OK ? fwrite(text, 1, length, stdout) != length : (int)status;
}
