/*
 * How much stack does each function need? Runs every function of the header, with a full log and the deepest sheets where
 * it takes them, on a stack of its own that was painted before, and looks how far down the paint is gone. Fails if one
 * needs more than the bound: SKALDRIFT_STACK_BYTES, or the number that is given. For Linux with glibc's ucontext.
 */
#define _XOPEN_SOURCE 700
#include <inttypes.h>
#include <stdint.h>
#include <stdio.h>
#include <stdlib.h>
#include <string.h>
#include <ucontext.h>

#include "skaldrift.h"

enum { L = SKALDRIFT_IMAGE_LIMIT, WRITES = SKALDRIFT_WRITES_LIMIT, LOG = SKALDRIFT_LOG_BYTES };
enum { ROW = SKALDRIFT_ROW_BYTES(L), STACK_WORDS = 16384 };

static const uint64_t PAINT = UINT64_C(0x9E3779B97F4A7C15);

/* What the calls are lent. */
static uint64_t state[SKALDRIFT_STATE_WORDS];
static uint8_t image[L], work[L], log_bytes[LOG], rows[WRITES * ROW], tape[1 + WRITES * ROW], data[LOG];
static uint64_t start, report;

/* Seven groups of one member about a clause: byte 0 is from 0 to 255, byte 0 equals itself, byte 0 is 1. */
static const uint8_t range[] = {0x18, 0x18, 0x18, 0x18, 0x18, 0x18, 0x18, 0x10, 0x00, 0x00, 0x03, 0xFC};
static const uint8_t tie[] = {0x18, 0x18, 0x18, 0x18, 0x18, 0x18, 0x18, 0x14, 0x00, 0x00, 0x00, 0x00};
static const uint8_t broken[] = {0x18, 0x18, 0x18, 0x18, 0x18, 0x18, 0x18, 0x10, 0x00, 0x00, 0x04, 0x04};
/* The same about a group of none, and about a group of one clause, which is too deep. */
static const uint8_t none[] = {0x18, 0x18, 0x18, 0x18, 0x18, 0x18, 0x18, 0x18, 0x00};
static const uint8_t too_deep[] = {0x18, 0x18, 0x18, 0x18, 0x18, 0x18, 0x18, 0x18, 0x10, 0x00, 0x00, 0x03, 0xFC};

#define OF(buffer) buffer, sizeof buffer
#define STATE state, SKALDRIFT_STATE_WORDS

/* A log of `count` writes, `len` bytes each, side by side. */
static void outstanding(uint64_t count, uint64_t len)
{
    state[0] = count;
    for (uint64_t i = 0; i < WRITES; i++) {
        state[1 + 2 * i] = i * len;
        state[2 + 2 * i] = len;
    }
}

/* 16 choice points with a write of one byte more: 15 writes of a byte, and empty ones as long as there is room. */
static void sixteen_points(void)
{
    outstanding(WRITES - 1, 1);
    for (uint64_t i = 15; i < WRITES - 1; i++) {
        state[2 + 2 * i] = 0;
    }
}

enum Memory { EMPTY, ONE_SHORT, FULL, POINTS };

static const struct Case {
    const char *name;
    uint64_t (*call)(void);
    uint64_t answer;
    enum Memory memory;
    uint8_t header;
    const uint8_t *sheet;
    size_t sheet_len;
} *now;

#define SHEET now->sheet, now->sheet_len

static uint64_t call_state_words(void) { return skaldrift_state_words() - SKALDRIFT_STATE_WORDS; }
static uint64_t call_open(void) { return skaldrift_open(STATE, OF(image), OF(log_bytes), SHEET); }

static uint64_t call_write(void)
{
    return skaldrift_write(STATE, OF(image), OF(log_bytes), 0, data, LOG / WRITES);
}

static uint64_t call_read(void) { return skaldrift_read(STATE, OF(image), OF(log_bytes), OF(work), 0, L); }
static uint64_t call_flush(void) { return skaldrift_flush(STATE, OF(image), OF(log_bytes)); }
static uint64_t call_cut(void) { return skaldrift_cut(STATE, OF(image), OF(log_bytes), OF(rows), &report); }

static uint64_t call_judge(void)
{
    return skaldrift_judge(STATE, OF(image), OF(log_bytes), SHEET, OF(work), 0, data, 1, &report);
}

static uint64_t call_gate(void)
{
    return skaldrift_gate(STATE, OF(image), OF(log_bytes), SHEET, OF(work), 0, data, 1, &report);
}

static uint64_t call_tape_write(void)
{
    return skaldrift_tape_write(STATE, OF(image), OF(log_bytes), OF(tape), 0, OF(work), 0, data, LOG / WRITES);
}

static uint64_t call_tape_flush(void)
{
    return skaldrift_tape_flush(STATE, OF(image), OF(log_bytes), OF(tape), &start, OF(work));
}

static uint64_t call_tape_cut(void)
{
    return skaldrift_tape_cut(STATE, OF(image), OF(log_bytes), OF(tape), &start, OF(work), &report);
}

static uint64_t call_setup(void) { return skaldrift_setup(OF(image), L - 1, 0); }
static uint64_t call_run(void) { return skaldrift_run(OF(image), OF(log_bytes), OF(work), L - 1, 0, 1, 2); }

#define CUT SKALDRIFT_CUT_HEADER
#define FLUSH SKALDRIFT_FLUSH_HEADER

static const struct Case cases[] = {
    {"skaldrift_state_words", call_state_words, 0, EMPTY, CUT, NULL, 0},
    {"skaldrift_open, a range", call_open, SKALDRIFT_DONE, FULL, CUT, OF(range)},
    {"skaldrift_open, a tie", call_open, SKALDRIFT_DONE, FULL, CUT, OF(tie)},
    {"skaldrift_open, an empty group", call_open, SKALDRIFT_DONE, FULL, CUT, OF(none)},
    {"skaldrift_open, too deep", call_open, SKALDRIFT_BAD_SHEET, FULL, CUT, OF(too_deep)},
    {"skaldrift_write", call_write, SKALDRIFT_DONE, ONE_SHORT, CUT, NULL, 0},
    {"skaldrift_read", call_read, SKALDRIFT_DONE, FULL, CUT, NULL, 0},
    {"skaldrift_flush", call_flush, SKALDRIFT_DONE, FULL, CUT, NULL, 0},
    {"skaldrift_cut", call_cut, SKALDRIFT_DONE, FULL, CUT, NULL, 0},
    {"skaldrift_judge, admitted", call_judge, SKALDRIFT_DONE, POINTS, CUT, OF(none)},
    {"skaldrift_judge, denied", call_judge, SKALDRIFT_DENIED, POINTS, CUT, OF(broken)},
    {"skaldrift_gate, admitted", call_gate, SKALDRIFT_DONE, POINTS, CUT, OF(range)},
    {"skaldrift_gate, an empty group", call_gate, SKALDRIFT_DONE, POINTS, CUT, OF(none)},
    {"skaldrift_gate, denied", call_gate, SKALDRIFT_DENIED, POINTS, CUT, OF(broken)},
    {"skaldrift_gate, too deep", call_gate, SKALDRIFT_BAD_SHEET, POINTS, CUT, OF(too_deep)},
    {"skaldrift_tape_write, flush", call_tape_write, SKALDRIFT_DONE, ONE_SHORT, FLUSH, NULL, 0},
    {"skaldrift_tape_write, cut", call_tape_write, SKALDRIFT_DONE, ONE_SHORT, CUT, NULL, 0},
    {"skaldrift_tape_flush", call_tape_flush, SKALDRIFT_DONE, FULL, FLUSH, NULL, 0},
    {"skaldrift_tape_cut", call_tape_cut, SKALDRIFT_DONE, FULL, CUT, NULL, 0},
    {"skaldrift_setup", call_setup, SKALDRIFT_DONE, EMPTY, CUT, NULL, 0},
    {"skaldrift_run", call_run, SKALDRIFT_DONE, EMPTY, CUT, NULL, 0},
};

static uint64_t stack[STACK_WORDS];
static ucontext_t back, aside;
static uint64_t answered;
static uintptr_t top;

/* What stands below here is the call's. */
static void on_the_stack(void)
{
    char here;
    top = (uintptr_t)&here;
    answered = now->call();
}

static void prepare(const struct Case *c)
{
    memset(image, 0, sizeof image);
    memset(work, 0, sizeof work);
    memset(rows, 0xFF, sizeof rows);
    memset(tape, 0xFF, sizeof tape);
    memset(data, 0, sizeof data);
    memset(log_bytes, 0, sizeof log_bytes);
    tape[0] = c->header;
    start = 0;
    switch (c->memory) {
    case EMPTY: outstanding(0, 0); break;
    case ONE_SHORT: outstanding(WRITES - 1, LOG / WRITES); break;
    case FULL: outstanding(WRITES, LOG / WRITES); break;
    case POINTS: sixteen_points(); break;
    }
}

/* The bytes of stack that the call needs. */
static size_t needed(const struct Case *c)
{
    prepare(c);
    for (size_t i = 0; i < STACK_WORDS; i++) {
        stack[i] = PAINT;
    }
    if (getcontext(&aside) != 0) {
        perror("stack: getcontext");
        exit(2);
    }
    aside.uc_stack.ss_sp = stack;
    aside.uc_stack.ss_size = sizeof stack;
    aside.uc_link = &back;
    now = c;
    makecontext(&aside, on_the_stack, 0);
    if (swapcontext(&back, &aside) != 0) {
        perror("stack: swapcontext");
        exit(2);
    }
    if (answered != c->answer) {
        fprintf(stderr, "stack: %s answered %" PRIu64 ", not %" PRIu64 "\n", c->name, answered, c->answer);
        exit(2);
    }
    size_t low = 0;
    while (low < STACK_WORDS && stack[low] == PAINT) {
        low++;
    }
    if (low == 0) {
        fprintf(stderr, "stack: %s needs more than the %zu bytes that are watched\n", c->name, sizeof stack);
        exit(2);
    }
    return top - (uintptr_t)&stack[low];
}

/* The bound that was asked for, or 0 if it is no number of bytes that can be watched. */
static size_t bound_of(const char *word)
{
    size_t bound = 0;
    for (; *word >= '0' && *word <= '9' && bound <= sizeof stack; word++) {
        bound = 10 * bound + (size_t)(*word - '0');
    }
    return *word == '\0' && bound < sizeof stack ? bound : 0;
}

int main(int count, char **words)
{
    size_t bound = count == 1 ? SKALDRIFT_STACK_BYTES : count == 2 ? bound_of(words[1]) : 0;
    if (bound == 0) {
        fprintf(stderr, "usage: stack [BYTES], below %zu\n", sizeof stack);
        return 2;
    }
    int over = 0;
    for (size_t i = 0; i < sizeof cases / sizeof cases[0]; i++) {
        size_t bytes = needed(&cases[i]);
        printf("%-31s %5zu bytes of stack%s\n", cases[i].name, bytes, bytes > bound ? "  OVER" : "");
        over += bytes > bound;
    }
    printf("stack: the bound is %zu bytes; %d of %zu calls need more\n", bound, over, sizeof cases / sizeof cases[0]);
    return over != 0;
}
