/* The least arena of a code, for tools/hosts:
 *
 *     host_arena CODE WORDS [ENTRY INPUT]
 *
 * verifies the code of a file, gives it a store of so many words, and with an entry runs it on a text and prints the
 * results. It writes the bytes of host/arena.c that were in use after the verification and at the end. */
#include "arena.h"
#include "fip_host.h"
#include <stdio.h>
#include <stdlib.h>
#include <string.h>

static uint8_t code[1 << 20];
static char input[1 << 20], text[1 << 20];

/* The bytes of a file. */
static size_t read_file(const char *name, void *to, size_t room) {
    FILE *file = fopen(name, "rb");
    if (!file) exit(2);
    size_t size = fread(to, 1, room, file);
    fclose(file);
    return size;
}

int main(int count, char **words) {
    FipMachine machine = {0};
    FipVerdict verdict = {0};
    FipLoaded loaded = {0};
    FipEnd end = {0};
    size_t entry = 0, length = 0;
    if (count != 3 && count != 5) return 2;
    uint32_t status = fip_verify(code, read_file(words[1], code, sizeof code), &machine, &verdict);
    if (status != FIP_OK) return 1;
    printf("%zu", fip_arena_peak());
    status = fip_store(&machine, strtoull(words[2], NULL, 10), 0);
    if (count == 5) {
        size_t size = read_file(words[4], input, sizeof input);
        if (status == FIP_OK) status = fip_find(&machine, words[3], strlen(words[3]), &entry);
        if (status == FIP_OK) status = fip_start_text(&machine, entry, input, size, 0, &loaded);
        if (status == FIP_OK) status = fip_run(&machine, 1000000, &end);
        if (status == FIP_OK) status = fip_print_results(&machine, text, sizeof text, &length);
    }
    printf(" %zu\n", fip_arena_peak());
    fip_free(machine);
    return status != FIP_OK;
}
