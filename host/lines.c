/* The lines of `fp2 verify` and of `fp2 run --gauge`. */
#include "lines.h"

void fip_put(FipText *text, const char *bytes, size_t size) {
    for (size_t i = 0; i < size && text->length < text->room; i++) text->bytes[text->length++] = bytes[i];
}

void fip_put_word(FipText *text, const char *word) {
    size_t size = 0;
    while (word[size]) size++;
    fip_put(text, word, size);
}

void fip_put_number(FipText *text, uint64_t number) {
    char digits[20];
    size_t from = sizeof digits;
    do digits[--from] = (char)('0' + number % 10);
    while (number /= 10);
    fip_put(text, digits + from, sizeof digits - from);
}

/* Words and numbers by turns, and the end of the line. */
static void put_line(FipText *text, const char *a, uint64_t i, const char *b, uint64_t j, const char *c) {
    fip_put_word(text, a);
    fip_put_number(text, i);
    if (b) {
        fip_put_word(text, b);
        fip_put_number(text, j);
        fip_put_word(text, c);
    }
    fip_put(text, "\n", 1);
}

void fip_put_verdict(FipText *text, const FipVerdict *verdict) {
    if (verdict->status == FIP_OK) fip_put_word(text, "sound\n");
    if (verdict->status == FIP_BAD_CODE) put_line(text, "bad code at ", verdict->at, 0, 0, 0);
    if (verdict->status == FIP_NO_MEMORY) fip_put_word(text, "out of memory\n");
    if (verdict->status == FIP_UNSOUND) {
        put_line(text, "unsound function ", verdict->function, " instruction ", verdict->at, " rule S");
        text->length--;
        put_line(text, "", verdict->rule, 0, 0, 0);
    }
}

/* The end of a run that isn't one with values. */
static void put_end(FipText *text, const FipEnd *end, const FipWanted *wanted) {
    if (end->status == FIP_OUT_OF_CALLS) put_line(text, "out of calls: ", wanted->calls, 0, 0, 0);
    if (end->status == FIP_OUT_OF_FRAMES) put_line(text, "out of frames: ", wanted->frames, 0, 0, 0);
    if (end->status == FIP_TRAP) {
        const char *kind = end->trap == 0 ? "trap Overflow at " : "trap DivideByZero at ";
        put_line(text, kind, end->line, ":", end->col, "");
    }
}

static void put_gauge(FipText *text, FipMachine *machine, const FipFunction *function) {
    FipGauge gauge = {0};
    for (size_t size = 1; size <= 16; size++) {
        fip_gauge(machine, size, &gauge);
        if (gauge.highest == 0) continue;
        put_line(text, "cells of ", size, ": ", gauge.lowest, " to ");
        text->length--;
        put_line(text, "", gauge.highest, 0, 0, 0);
    }
    put_line(text, "stack: ", gauge.frames, " frames, ", gauge.words, " words");
    if (function->fip) put_line(text, "bound: ", function->frames, " frames, ", function->words, " words");
}

/* The line of a start that was refused. */
static uint32_t put_refusal(FipText *text, uint32_t status, const FipLoaded *loaded) {
    if (status == FIP_BAD_INPUT) put_line(text, "bad input at ", loaded->at, 0, 0, 0);
    if (status == FIP_TOO_SMALL) {
        put_line(text, "store too small: ", loaded->needed, " needed, ", loaded->given, " given");
    }
    if (status == FIP_NO_MEMORY) fip_put_word(text, "out of memory\n");
    return status;
}

uint32_t fip_put_run(FipText *text, FipMachine *machine, const FipWanted *wanted) {
    size_t entry = 0, length = 0;
    FipFunction function = {0};
    FipLoaded loaded = {0};
    FipEnd end = {0};
    uint32_t status = fip_find(machine, wanted->entry, wanted->entry_size, &entry);
    if (status == 0) status = fip_function(machine, entry, &function);
    if (status == 0) status = fip_store(machine, wanted->words, 0);
    if (status == 0) {
        status = fip_start_text(machine, entry, wanted->input, wanted->input_size, wanted->frames, &loaded);
    }
    if (status != 0) return put_refusal(text, status, &loaded);
    status = fip_run(machine, wanted->calls, &end);
    put_end(text, &end, wanted);
    if (status != 0) return status;
    status = fip_print_results(machine, text->bytes + text->length, text->room - text->length, &length);
    if (status != 0) return put_refusal(text, status, &loaded);
    text->length += length < text->room - text->length ? length : text->room - text->length;
    put_gauge(text, machine, &function);
    return FIP_OK;
}
