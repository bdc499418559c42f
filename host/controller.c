/* A controller whose state lives in the store: for each reading one run of `read`, on the state that the run before
 * left. All memory is taken before the second reading; from then on the arena refuses.
 *
 *     controller CODE READINGS TICKS
 *
 * CODE is the code file of examples/controller.fp; READINGS has whole numbers, and is read from its start again where
 * it ends. What is printed last: the state, the sum of the powers, the requests for memory while it ran. */
#include "arena.h"
#include "fip_host.h"
#include <stdio.h>
#include <stdlib.h>
#include <string.h>

static uint8_t code[1 << 16];

/* Ends the program where a call did not do what it should. */
static void need(const char *call, uint32_t status) {
    if (status == FIP_OK) return;
    fprintf(stderr, "%s: status %u\n", call, (unsigned)status);
    exit(1);
}

/* Runs a function on arguments, and keeps its results. */
static void run(FipMachine *machine, size_t function, const FipArgument *arguments, size_t count, size_t *numbers) {
    FipEnd end = {0};
    need("fip_start_kept", fip_start_kept(machine, function, arguments, count, 0));
    need("fip_run", fip_run(machine, 100, &end));
    need("fip_keep", fip_keep(machine, numbers, 2, &count));
}

/* The power for a reading. The state is used up, and a new one kept. */
static int64_t tick(FipMachine *machine, size_t read, int64_t reading, size_t *state) {
    FipArgument arguments[] = {{false, (uint64_t)reading}, {true, *state}};
    size_t numbers[2] = {0};
    FipKept power = {0};
    run(machine, read, arguments, 2, numbers);
    need("fip_kept", fip_kept(machine, numbers[1], &power));
    need("fip_forget", fip_forget(machine, numbers[1]));
    *state = numbers[0];
    return (int64_t)power.word;
}

/* Prints a state: its mode by name, and three numbers. */
static void print_state(FipMachine *machine, size_t state) {
    FipKept kept = {0};
    uint64_t mode = 0, field = 0;
    uint32_t mode_type = 0;
    size_t fields = 0, length = 0;
    char name[16] = {0};
    need("fip_kept", fip_kept(machine, state, &kept));
    need("fip_field", fip_field(machine, kept.word, 0, &mode));
    need("fip_field_type", fip_field_type(machine, kept.type_number, 0, 0, &mode_type));
    need("fip_constructor", fip_constructor(machine, mode_type, mode / 2, &fields, name, sizeof name, &length));
    printf("State(%.*s", (int)length, name);
    for (size_t i = 1; i < 4; i++) {
        need("fip_field", fip_field(machine, kept.word, i, &field));
        printf(", %lld", (long long)field);
    }
    printf(")\n");
}

int main(int count, char **words) {
    FipMachine machine = {0};
    FipVerdict verdict = {0};
    size_t start = 0, read = 0, numbers[2] = {0}, requests = 0;
    FipArgument wanted = {false, 60};
    long long sum = 0, reading = 0, ticks = count == 4 ? atoll(words[3]) : 0;
    FILE *file = count == 4 ? fopen(words[1], "rb") : NULL, *readings = count == 4 ? fopen(words[2], "r") : NULL;
    if (!file || !readings) return 2;
    size_t size = fread(code, 1, sizeof code, file);
    need("fip_verify", fip_verify(code, size, &machine, &verdict));
    need("fip_find", fip_find(&machine, "start", 5, &start));
    need("fip_find", fip_find(&machine, "read", 4, &read));
    need("fip_store", fip_store(&machine, 8, 4));
    run(&machine, start, &wanted, 1, numbers);
    for (long long i = 0; i < ticks; i++) {
        if (fscanf(readings, "%lld", &reading) != 1) {
            rewind(readings);
            if (fscanf(readings, "%lld", &reading) != 1) return 2;
        }
        sum += tick(&machine, read, reading, &numbers[0]);
        if (i == 0) {
            requests = fip_arena_requests();
            fip_arena_close();
        }
    }
    print_state(&machine, numbers[0]);
    printf("power %lld, requests %zu, peak %zu bytes\n", sum, fip_arena_requests() - requests, fip_arena_peak());
    fip_free(machine);
    return 0;
}
