/* The machine for C programs: codes of FP2 are verified, run and read. docs/HOST.md begins with it.
 *
 * tools/header.py writes this file from the exports of crates/fip_host: change those, and not this file.
 *
 * A machine has a verified code, one store of cells, at most one run over it, and values that are kept from run to run.
 * A word is 64 bits: an int; twice the number of a constructor without fields; or an odd number that names a cell. A
 * cell with k fields takes k + 1 words of the store.
 *
 * Bytes and numbers may be anything: code files, texts, words, and numbers of functions, types, fields, cells and kept
 * values are checked, and what is wrong gets a status. Nothing checks these, which the caller keeps:
 *
 * - A pointer isn't null, also where its length is 0. It is aligned, leads to as much as its length says, or to one of
 *   its type, and what it leads to has values of that type: begin with `FipEnd end = {0};`, and give a bool no other
 *   bytes than 0 and 1.
 * - What a call writes to overlaps nothing else that the call is given.
 * - A FipMachine is from fip_verify with status 0, and ends at fip_free. A copy of it is the same machine.
 * - A machine is in one call at a time, and stays in one thread. Two machines may be in two threads where the functions
 *   for memory may.
 * - The functions for memory that are linked (host/heap.c or host/arena.c) give blocks that are aligned to 16 bytes.
 * - No call is made from a signal handler.
 *
 * A machine's code never changes. A call whose comment doesn't speak of memory asks for none. Where a status isn't 0
 * only what the comment names is written. Names and texts end with their length, without a byte 0. "Proved" names the
 * clauses of the export in crates/fip_host/src/calls, which say it exactly.
 */
#ifndef FIP_HOST_H
#define FIP_HOST_H

#include <stdbool.h>
#include <stddef.h>
#include <stdint.h>

#ifdef __cplusplus
extern "C" {
#endif

/* What a call answers. */
enum {
    FIP_OK = 0, /* it is done; of a run: it ended with values */
    FIP_TRAP = 3, /* the run ended in a trap */
    FIP_OUT_OF_CALLS = 4, /* no call is left */
    FIP_BAD_INPUT = 5, /* the text is none of the parameters' types */
    FIP_TOO_SMALL = 6, /* the store has too few words left */
    FIP_OUT_OF_FRAMES = 7, /* no frame is left */
    FIP_BAD_CODE = 8, /* the bytes are no code file */
    FIP_NO_MEMORY = 10, /* there was no memory */
    FIP_UNSOUND = 11, /* the code isn't sound */
    FIP_OUT_OF_RANGE = 12, /* a number names nothing, or is too large */
    FIP_NOT_READY = 13, /* there is no run, or it has no results to be read */
    FIP_WRONG_VALUE = 14, /* an argument is no value of its parameter's type */
    FIP_GOES_ON = 15, /* the run goes on */
};

/* A machine. What `at` points to is the library's alone. */
typedef struct FipMachine {
    void *at;
} FipMachine;

/* What reading and verifying a code file came to. */
typedef struct FipVerdict {
    /* 0: a sound code. 8: no code file. 10: no memory. 11: a code that isn't sound. */
    uint32_t status;
    /* The rule that is broken, 0 to 9 for S0 to S9, where the status is 11. */
    uint32_t rule;
    /* The function that breaks it. */
    size_t function;
    /* The instruction that breaks it, or the offset at which the bytes can't go on. */
    size_t at;
} FipVerdict;

/* A function of a code. */
typedef struct FipFunction {
    /* Whether it is `fip`: it releases no cell, and its stack is bounded. */
    bool fip;
    /* The number of its parameters. */
    size_t parameters;
    /* The number of cells that a caller hands over beside the arguments. */
    size_t credits;
    /* The number of its results. */
    size_t results;
    /* The frames beside its own that a run holds at the most, where it is `fip`. */
    size_t frames;
    /* The words of all frames that a run holds at the most, where it is `fip`. */
    size_t words;
} FipFunction;

/* A parameter of a function. */
typedef struct FipParameter {
    /* The number of its type: 0 is int, others count from 1. */
    uint32_t type_number;
    /* Whether the argument is borrowed: the run leaves it as it is. */
    bool borrowed;
} FipParameter;

/* The memory of a store and a run, in bytes. */
typedef struct FipNeed {
    /* What `fip_store` takes. */
    size_t store;
    /* What a start takes, where the arguments are words. */
    size_t run;
} FipNeed;

/* Why a text was not loaded. */
typedef struct FipLoaded {
    /* Where the status is 5: the least offset at which the text can't go on. */
    size_t at;
    /* Where the status is 6: the words that the cells need. */
    size_t needed;
    /* Where the status is 6: the words that are left. */
    size_t given;
} FipLoaded;

/* Where a run is. */
typedef struct FipEnd {
    /* 0: it ended with values. 3: in a trap. 4: no call is left. 7: no frame is left. 13: there is none. 15: it
     * goes on. */
    uint32_t status;
    /* Where the status is 3: 0 for an overflow, 1 for a division by zero. */
    uint32_t trap;
    /* Where the status is 3: the line of the operator, from 1. */
    size_t line;
    /* Where the status is 3: its column in bytes, from 1. */
    size_t col;
} FipEnd;

/* A cell of the store. */
typedef struct FipCell {
    /* The number of its constructor. */
    uint32_t tag;
    /* Whether it is released. */
    bool released;
    /* The number of its fields, from 1 to 16. */
    size_t size;
} FipCell;

/* What a run held, over all states that its calls ended in. */
typedef struct FipGauge {
    /* The lowest number of cells of the size. */
    uint64_t lowest;
    /* The highest number of cells of the size. */
    uint64_t highest;
    /* The most frames beside the running one. */
    size_t frames;
    /* The most words of all frames. */
    size_t words;
} FipGauge;

/* An argument of a run: a value that was kept, or an int or a constructor without fields. */
typedef struct FipArgument {
    /* Whether `value` is the number of a kept value. */
    bool kept;
    /* That number; or the 64 bits of an int, or twice the number of a constructor. */
    uint64_t value;
} FipArgument;

/* A value that was kept. */
typedef struct FipKept {
    /* The number of its type. */
    uint32_t type_number;
    /* Its word. */
    uint64_t word;
} FipKept;

/* Codes: verifying one, what it has, its end */

/* Reads and verifies a code file. Status 0: `machine` gets a machine of just that code, with no store and no
 * run; `fip_free` ends it. What was in `machine` before is written over, and not ended. Else nothing is written
 * there: 8 where the bytes are no code file, 11 where the code isn't sound, 10 where there is no memory;
 * `verdict` says more. Proved: is, status, machine, none. */
uint32_t fip_verify(const uint8_t *bytes, size_t bytes_size, FipMachine *machine, FipVerdict *verdict);

/* Ends a machine, and frees all its memory: the code, the store, the run, what was kept. */
void fip_free(FipMachine machine);

/* The number of functions of the code. The machine stays as it is. Proved: number, same. */
size_t fip_functions(const FipMachine *machine);

/* The number of the first function of a name. Status 12: there is none. The machine stays as it is. Proved:
 * same, found, first, none. */
uint32_t fip_find(const FipMachine *machine, const char *name, size_t name_size, size_t *number);

/* What a function has. Status 12: there is none of this number. The machine stays as it is. Proved: same,
 * reports, none. */
uint32_t fip_function(const FipMachine *machine, size_t number, FipFunction *function);

/* The name of a function: how many bytes it has; as much of it as fits is written to `out`. Status 12: there is
 * none of this number. The machine stays as it is. Proved: same, reports, none. */
uint32_t fip_name(const FipMachine *machine, size_t number, char *out, size_t out_size, size_t *length);

/* A parameter of a function, from 0. Status 12: there is none. The machine stays as it is. Proved: same,
 * reports, none. */
uint32_t fip_parameter(const FipMachine *machine, size_t number, size_t i, FipParameter *parameter);

/* The type of a result of a function, from 0. Status 12: there is none. The machine stays as it is. Proved:
 * same, reports, none. */
uint32_t fip_result_type(const FipMachine *machine, size_t number, size_t i, uint32_t *type_number);

/* The size of the cell of a credit of a function, from 0. Status 12: there is none. The machine stays as it is.
 * Proved: same, reports, none. */
uint32_t fip_credit(const FipMachine *machine, size_t number, size_t i, uint8_t *size);

/* The number of data types of the code; they count from 1. The machine stays as it is. Proved: number, same. */
size_t fip_types(const FipMachine *machine);

/* A constructor of a type, from 0: how many fields it has, and how many bytes its name; as much of the name as
 * fits is written to `out`. Status 12: there is none. The machine stays as it is. Proved: same, reports, none. */
uint32_t fip_constructor(const FipMachine *machine, uint32_t type_number, size_t i, size_t *fields, char *out,
                         size_t out_size, size_t *length);

/* The type of a field of a constructor, each from 0. Status 12: there is none. The machine stays as it is.
 * Proved: same, reports, none. */
uint32_t fip_field_type(const FipMachine *machine, uint32_t type_number, size_t i, size_t field,
                        uint32_t *field_type);

/* The bytes of memory that are reckoned for a store of so many words, with room for so many kept values, and for
 * a run of a function with so many frames, by functions for memory that add at most 32 bytes to each block: a
 * formula, which is enough as tests show. Status 12: there is no such function. The machine stays as it is.
 * Proved: same, reports, none. */
uint32_t fip_need(const FipMachine *machine, size_t number, size_t words, size_t kept, uint64_t frames,
                  FipNeed *need);

/* The store and its cells */

/* Gives the machine a new store of so many words, at most 16,777,216, and room for so many kept values; what was
 * in the store before, a run and what was kept are gone, and their memory is given back once the new store's is
 * taken. That is taken here, and no call that makes, reads or releases a cell takes any. Status 12: too many
 * words; 10: there is no memory, and all is as it was. Proved: code, empty, left, idle, none, same, refused. */
uint32_t fip_store(FipMachine *machine, size_t words, size_t kept);

/* Makes a cell of 1 to 16 fields with the constructor of this number, and writes its word. Status 6: the store
 * is full; 12: another number of fields. That the fields are words of the constructor's types is the caller's
 * affair. It takes no memory: that of the cells was taken by `fip_store`. Proved: code, task, kept, made, full,
 * range, same. */
uint32_t fip_cell(FipMachine *machine, uint32_t tag, const uint64_t *fields, size_t fields_count, uint64_t *word);

/* The cell that a word names. Status 12: it names none. The machine stays as it is. Proved: same, reports, none. */
uint32_t fip_cell_at(const FipMachine *machine, uint64_t word, FipCell *cell);

/* The word of a field, from 0, of the cell that a word names. Status 12: there is no such cell or field. The
 * machine stays as it is. Proved: same, reports, none. */
uint32_t fip_field(const FipMachine *machine, uint64_t word, size_t i, uint64_t *field);

/* The word of the cell after the one that a word names; of the first cell where the word names none, as 0 does.
 * Status 12: no further cell is there. The machine stays as it is. Proved: same, reports, none. */
uint32_t fip_next(const FipMachine *machine, uint64_t word, uint64_t *next);

/* The number of cells of a size that aren't released. The machine stays as it is. Proved: same, is. */
size_t fip_count(const FipMachine *machine, size_t size);

/* Releases the cell that a word names: the next cell of its size takes its place. Status 12: the word names no
 * cell, or one that is released. That nothing else names it is the caller's affair. Proved: code, task, kept,
 * released, same. */
uint32_t fip_release(FipMachine *machine, uint64_t word);

/* Runs */

/* Starts a run of a function on the words of its arguments, and makes a cell for each of its credits; where it
 * isn't `fip` it has so many frames, at most 1,000,000. A run that was there is given up, and its memory serves
 * this one: where that was a run of the same function, no memory is asked for. Status 12: there is no such
 * function, or it takes another number of arguments; 6: the store has no room for the credits; 10: there is no
 * memory. That the words stand for values of the parameters' types, each cell once, is the caller's affair;
 * where they don't, the run still ends. Proved: code, kept, starts, full, range, same, status. */
uint32_t fip_start(FipMachine *machine, size_t number, const uint64_t *arguments, size_t arguments_count,
                   uint64_t frames);

/* Starts a run of a function on the text of its arguments, a line each, as `fip_start` does. Status 5: the text
 * is none of the parameters' types, and `loaded.at` is the least offset at which it can't go on; 6: its cells
 * and the credits need more words than the store has left, and `loaded` has both numbers; 12: there is no such
 * function, or the text is longer than any memory. So the store stays as it was. 10: there is no memory, and the
 * store is without a word: give the machine another. Proved: code, kept, starts, bad, large, range, lost, same,
 * status. */
uint32_t fip_start_text(FipMachine *machine, size_t number, const char *text, size_t text_size, uint64_t frames,
                        FipLoaded *loaded);

/* Does one instruction of the run, and reports where it is then. It takes no memory. Once the run has ended, it
 * reports the same again and changes nothing. Proved: code, steps, idle, status, memory. */
uint32_t fip_step(FipMachine *machine, FipEnd *end);

/* Runs to the end, with so many calls: the entry takes one, and each Call and Tail one. It takes no memory.
 * Where the calls are used up (status 4), another `fip_run` goes on from there, with one call fewer than it is
 * given. Proved: code, runs, idle, status, memory. */
uint32_t fip_run(FipMachine *machine, uint64_t calls, FipEnd *end);

/* Tells where the run is. The machine stays as it is. Proved: same, is, status. */
uint32_t fip_end(const FipMachine *machine, FipEnd *end);

/* The number of results of a run that ended with values; 0 where there are none, or they are kept. The machine
 * stays as it is. Proved: same, is. */
size_t fip_results(const FipMachine *machine);

/* The word of a result, from 0. Status 13: there are no results; 12: there is none of this number. The machine
 * stays as it is. Proved: same, reports, none, closed. */
uint32_t fip_result(const FipMachine *machine, size_t i, uint64_t *word);

/* Prints the results, a line each: how many bytes the text has; as much of it as fits is written to `out`. It
 * takes memory for the text. Status 13: there are no results; 10: there is no memory. The machine stays as it
 * is. Proved: same, lines, none, closed. */
uint32_t fip_print_results(const FipMachine *machine, char *out, size_t out_size, size_t *length);

/* The gauge of the run: the numbers of cells of a size, from 1 to 16, and the most of the stack, where the run
 * began and where calls of `fip_run` ended. Status 12: another size. The machine stays as it is. Proved: same,
 * reports, none. */
uint32_t fip_gauge(const FipMachine *machine, size_t size, FipGauge *gauge);

/* Values that are kept from run to run, and their text */

/* Keeps the results of a run that ended with values, each under the first number that is free: how many they
 * are, and their numbers in `numbers`. They can't be read or kept again. It takes no memory. Status 13: there
 * are none; 12: `numbers` is too short, or too few numbers are free. Proved: code, task, store, taken, keeps,
 * rest, closed, range, status, same. */
uint32_t fip_keep(FipMachine *machine, size_t *numbers, size_t numbers_count, size_t *count);

/* What is kept under a number. Status 12: nothing is. The machine stays as it is. Proved: same, reports, none. */
uint32_t fip_kept(const FipMachine *machine, size_t number, FipKept *kept);

/* Releases the cells of a kept value, whose number is free from then on. It takes no memory. Status 12: nothing
 * is kept under the number. Proved: code, task, cells, free, some, none. */
uint32_t fip_forget(FipMachine *machine, size_t number);

/* Starts a run of a function, as `fip_start` does, on kept values, on ints and on constructors without fields. A
 * kept value is used up, unless its parameter is borrowed; where no run starts, all stay. Status 12: there is no
 * such function, it takes another number of arguments, or nothing is kept under a number; 14: an argument is no
 * value of its parameter's type, or one that is used up is given twice; 6: the store has no room for the
 * credits; 10: there is no memory. Proved: code, starts, uses, kept, full, range, status. */
uint32_t fip_start_kept(FipMachine *machine, size_t number, const FipArgument *arguments, size_t arguments_count,
                        uint64_t frames);

/* Prints the value of a type that a word stands for: how many bytes the text has; as much of it as fits is
 * written to `out`. It takes memory for the text. Status 10: there is no memory. The machine stays as it is.
 * Proved: same, text, none. */
uint32_t fip_print(const FipMachine *machine, uint32_t type_number, uint64_t word, char *out, size_t out_size,
                   size_t *length);

#ifdef __cplusplus
}
#endif

#endif
