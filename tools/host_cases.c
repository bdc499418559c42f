/* Answers the cases that tools/hosts writes to standard input, by the calls of host/fip_host.h:
 *
 *     verdict SIZE, then a code file     the line of `fp2 verify` of it, or `sound`; a sound one is used besides
 *     run ENTRY CALLS FRAMES WORDS SIZE INPUT, then a code file and so many bytes of input
 *                                        what `fp2 run --gauge` prints
 *
 * Each answer is a line with a status and a length, and a text of that length. */
#include "lines.h"
#include <stdio.h>
#include <stdlib.h>
#include <string.h>

static uint8_t code[1 << 24];
static char input[1 << 24], bytes[1 << 24], name[64];
static uint64_t series;

/* The next number of a series that the code file alone determines. */
static uint64_t next_number(void) {
    series ^= series << 13;
    series ^= series >> 7;
    return series ^= series << 17;
}

/* Numbers that name something, numbers just past that, and any. */
static size_t about(size_t count) {
    uint64_t number = next_number();
    return number % 16 == 0 ? (size_t)next_number() : (size_t)(number / 16 % (count + 2));
}

/* Asks for all that a code has, and for some that it hasn't. */
static void ask_code(FipMachine *machine) {
    FipFunction function = {0};
    FipParameter parameter = {0};
    FipNeed need = {0};
    size_t functions = fip_functions(machine), types = fip_types(machine), length = 0, number = 0, fields = 0;
    uint32_t type_number = 0;
    uint8_t size = 0;
    for (size_t i = 0; i < functions + 2; i++) {
        fip_function(machine, i, &function);
        fip_name(machine, i, name, about(sizeof name) % sizeof name, &length);
        fip_find(machine, name, length % sizeof name, &number);
        fip_parameter(machine, i, about(function.parameters), &parameter);
        fip_result_type(machine, i, about(function.results), &type_number);
        fip_credit(machine, i, about(function.credits), &size);
        fip_need(machine, i, about(100), about(10), about(10), &need);
    }
    for (size_t i = 0; i < 2 * types + 2; i++) {
        uint32_t type = (uint32_t)about(types);
        fip_constructor(machine, type, about(3), &fields, name, about(sizeof name) % sizeof name, &length);
        fip_field_type(machine, type, about(3), about(fields), &type_number);
    }
}

/* Makes cells with fields of any kind, reads and releases some, and goes over all. */
static uint64_t ask_cells(FipMachine *machine, uint64_t word) {
    FipCell cell = {0};
    uint64_t fields[17], made = 0;
    for (size_t i = 0; i < 17; i++) fields[i] = next_number() % 4 ? word : next_number() % 64;
    if (fip_cell(machine, (uint32_t)about(4), fields, about(8) % 18, &made) == FIP_OK) word = made;
    fip_cell_at(machine, next_number() % 40, &cell);
    fip_field(machine, word, about(4), &made);
    for (made = 0; fip_next(machine, made, &made) == FIP_OK;) fip_cell_at(machine, made, &cell);
    if (next_number() % 4 == 0) fip_release(machine, next_number() % 40);
    fip_count(machine, about(16));
    return word;
}

/* Steps and runs what was started, and asks for what came of it. */
static void ask_end(FipMachine *machine) {
    FipEnd end = {0};
    FipGauge gauge = {0};
    uint64_t result = 0;
    for (size_t i = about(8) % 10; i > 0; i--) fip_step(machine, &end);
    fip_run(machine, about(40) % 50, &end);
    fip_gauge(machine, about(16), &gauge);
    fip_result(machine, about(fip_results(machine)), &result);
    fip_end(machine, &end);
}

/* Runs a function on words that may stand for nothing. What comes of them isn't printed, since it may have no end. */
static void ask_made_up(FipMachine *machine, size_t function, uint64_t word) {
    FipFunction told = {0};
    FipKept kept = {0};
    size_t numbers[8] = {0}, count = 0;
    uint64_t words[16];
    fip_function(machine, function, &told);
    for (size_t i = 0; i < 16; i++) words[i] = next_number() % 2 ? word : next_number() % 8;
    fip_start(machine, function, words, (next_number() % 8 ? told.parameters : about(told.parameters)) % 17, about(5));
    ask_end(machine);
    fip_keep(machine, numbers, about(8) % 9, &count);
    fip_kept(machine, about(4), &kept);
    if (next_number() % 2) fip_forget(machine, about(4));
}

/* Runs a function on a text or on kept values, and keeps, forgets and prints what comes of it. */
static void ask_values(FipMachine *machine, size_t function) {
    static const char *texts[] = {"", "1\n", "1\n2\n", "Nil\nNil\n", "Cons(1, Nil)\nNil\n", "2\nLeaf\n"};
    const char *text = texts[next_number() % 6];
    FipFunction told = {0};
    FipKept kept = {0};
    FipLoaded loaded = {0};
    FipArgument arguments[16];
    size_t numbers[8] = {0}, count = 0, length = 0;
    fip_function(machine, function, &told);
    for (size_t i = 0; i < 16; i++) arguments[i] = (FipArgument){next_number() % 2, next_number() % 6};
    if (next_number() % 2) fip_start_text(machine, function, text, strlen(text), about(5), &loaded);
    else fip_start_kept(machine, function, arguments, told.parameters % 17, about(5));
    ask_end(machine);
    fip_print_results(machine, bytes, about(64) % 70, &length);
    fip_keep(machine, numbers, about(8) % 9, &count);
    if (fip_kept(machine, about(4), &kept) == FIP_OK) {
        fip_print(machine, kept.type_number, kept.word, bytes, about(64) % 70, &length);
    }
    fip_print(machine, (uint32_t)about(fip_types(machine)), next_number() % 16 * 2, bytes, about(64) % 70, &length);
    if (next_number() % 4 == 0) fip_forget(machine, about(4));
}

/* Uses a machine in all ways, most of them wrong. */
static void use(FipMachine *machine) {
    size_t functions = fip_functions(machine);
    uint64_t word = 0;
    ask_code(machine);
    ask_made_up(machine, 0, 0);
    fip_store(machine, about(200) % 300, about(4) % 8);
    for (int i = 0; i < 8; i++) {
        word = ask_cells(machine, word);
        ask_made_up(machine, about(functions), word);
    }
    fip_store(machine, 100, 6);
    for (int i = 0; i < 16; i++) ask_values(machine, about(functions));
}

static void answer(uint32_t status, const FipText *text) {
    printf("%u %zu\n", (unsigned)status, text->length);
    fwrite(text->bytes, 1, text->length, stdout);
    fflush(stdout);
}

/* Reads so many bytes. */
static void get(void *to, size_t size, size_t room) {
    if (size > room || fread(to, 1, size, stdin) != size) exit(2);
}

static uint32_t verdict_of(size_t size, FipMachine *machine, FipText *text) {
    FipVerdict verdict = {0};
    get(code, size, sizeof code);
    uint32_t status = fip_verify(code, size, machine, &verdict);
    fip_put_verdict(text, &verdict);
    return status;
}

static void run_case(FipWanted wanted, size_t size) {
    FipText verdict = {bytes, sizeof bytes, 0}, text = {bytes, sizeof bytes, 0};
    FipMachine machine = {0};
    uint32_t status = verdict_of(size, &machine, &verdict);
    get(input, wanted.input_size, sizeof input);
    if (status != FIP_OK) {
        answer(status, &verdict);
        return;
    }
    status = fip_put_run(&text, &machine, &wanted);
    fip_free(machine);
    answer(status, &text);
}

static void verdict_case(size_t size) {
    FipText text = {bytes, sizeof bytes, 0};
    FipMachine machine = {0};
    uint32_t status = verdict_of(size, &machine, &text);
    answer(status, &text);
    if (status != FIP_OK) return;
    series = 88172645463325252u;
    for (size_t i = 0; i < size; i++) series = (series ^ code[i]) * 1099511628211u | 1;
    use(&machine);
    fip_free(machine);
}

int main(void) {
    char line[256], entry[128] = {0};
    unsigned long long calls = 0, frames = 0;
    size_t words = 0, size = 0, input_size = 0;
    while (fgets(line, sizeof line, stdin)) {
        int end = 0;
        if (sscanf(line, "verdict %zu", &size) == 1) {
            verdict_case(size);
        } else if (sscanf(line, "run %127s%n %llu %llu %zu %zu %zu", entry, &end, &calls, &frames, &words, &size,
                          &input_size) == 6) {
            FipWanted wanted = {entry, (size_t)end - 4, input, input_size, calls, frames, words};
            run_case(wanted, size);
        } else {
            return 2;
        }
    }
    return 0;
}
