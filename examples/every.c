/*
 * Every function of the header once, in C and in C++: first each with something wrong, which is refused and leaves every
 * lent byte as it was, then a short run in which each is done.
 */
#include <skaldrift.h>

#include <stdio.h>
#include <stdlib.h>
#include <string.h>

#define WORDS SKALDRIFT_STATE_WORDS
#define L 16

typedef struct {
    uint64_t state[WORDS + 1];
    uint8_t image[L], log[SKALDRIFT_LOG_BYTES], work[L], predicted[L];
    uint64_t start, report;
} desk;

static const uint8_t always[] = {0x18, 0x00};
static const uint8_t tape[] = {0x80, 0x80, 0x00, 0x40};
static const uint8_t data[] = {0x11, 0x22};
static const uint8_t row[] = {0x80};

static void answers(uint64_t number, uint64_t expected, const char *call)
{
    if (number != expected) {
        fprintf(stderr, "every: %s answers %d and not %d\n", call, (int)number, (int)expected);
        exit(EXIT_FAILURE);
    }
}

static void holds(int good, const char *what)
{
    if (!good) {
        fprintf(stderr, "every: not so: %s\n", what);
        exit(EXIT_FAILURE);
    }
}

#define STATE(d, words) (d)->state, (words)
#define IMAGE(d) (d)->image, L
#define LOG(d) (d)->log, SKALDRIFT_LOG_BYTES
#define WORK(d) (d)->work, L
#define PREDICTED(d) (d)->predicted, L
#define ALL(bytes) (bytes), sizeof(bytes)

/* Each call that has a state, on a state of this many words. */
static void each(desk *d, size_t words)
{
    answers(skaldrift_open(STATE(d, words), IMAGE(d), LOG(d), ALL(always)), 1, "open");
    answers(skaldrift_write(STATE(d, words), IMAGE(d), LOG(d), 0, ALL(data)), 1, "write");
    answers(skaldrift_read(STATE(d, words), IMAGE(d), LOG(d), WORK(d), 0, 1), 1, "read");
    answers(skaldrift_flush(STATE(d, words), IMAGE(d), LOG(d)), 1, "flush");
    answers(skaldrift_cut(STATE(d, words), IMAGE(d), LOG(d), NULL, 0, &d->report), 1, "cut");
    answers(skaldrift_judge(STATE(d, words), IMAGE(d), LOG(d), ALL(always), WORK(d), 0, ALL(data), &d->report), 1, "judge");
    answers(skaldrift_gate(STATE(d, words), IMAGE(d), LOG(d), ALL(always), WORK(d), 0, ALL(data), &d->report), 1, "gate");
    answers(skaldrift_tape_write(STATE(d, words), IMAGE(d), LOG(d), ALL(tape), 0, PREDICTED(d), 0, ALL(data)), 1, "tape_write");
    answers(skaldrift_tape_flush(STATE(d, words), IMAGE(d), LOG(d), ALL(tape), &d->start, PREDICTED(d)), 1, "tape_flush");
    answers(skaldrift_tape_cut(STATE(d, words), IMAGE(d), LOG(d), ALL(tape), &d->start, PREDICTED(d), &d->report), 1, "tape_cut");
}

static void refused(desk *d)
{
    desk before;
    memset(d, 0x01, sizeof *d);
    before = *d;
    each(d, WORDS - 1);
    each(d, WORDS + 1);
    answers(skaldrift_setup(IMAGE(d), L, 7), 2, "setup");
    answers(skaldrift_run(IMAGE(d), LOG(d), WORK(d), 0, 1, 2, 1001), 12, "run");
    holds(memcmp(d, &before, sizeof *d) == 0, "a refusal leaves every byte");
}

static void done(desk *d)
{
    memset(d, 0, sizeof *d);
    answers(skaldrift_open(STATE(d, WORDS), IMAGE(d), LOG(d), ALL(always)), 0, "open");
    answers(skaldrift_write(STATE(d, WORDS), IMAGE(d), LOG(d), 7, ALL(data)), 0, "write");
    answers(skaldrift_read(STATE(d, WORDS), IMAGE(d), LOG(d), WORK(d), 7, 2), 0, "read");
    holds(d->work[7] == 0x11 && d->work[8] == 0x22 && d->image[7] == 0, "the write is read, and not in the image yet");
    answers(skaldrift_cut(STATE(d, WORDS), IMAGE(d), LOG(d), ALL(row), &d->report), 0, "cut");
    holds(d->image[7] == 0x11 && d->image[8] == 0 && d->report == 1, "the cut keeps chunk 0");
    answers(skaldrift_judge(STATE(d, WORDS), IMAGE(d), LOG(d), ALL(always), WORK(d), 0, ALL(data), &d->report), 0, "judge");
    answers(skaldrift_gate(STATE(d, WORDS), IMAGE(d), LOG(d), ALL(always), WORK(d), 7, ALL(data), &d->report), 0, "gate");
    holds(d->report == 2 && d->state[0] == 1, "the admitted write has two points and is the one recorded");
    answers(skaldrift_flush(STATE(d, WORDS), IMAGE(d), LOG(d)), 0, "flush");
    holds(d->image[8] == 0x22 && d->state[0] == 0, "the flush makes it last");
    answers(skaldrift_tape_write(STATE(d, WORDS), IMAGE(d), LOG(d), ALL(tape), d->start, PREDICTED(d), 0, ALL(data)), 0, "tape_write");
    answers(skaldrift_tape_flush(STATE(d, WORDS), IMAGE(d), LOG(d), ALL(tape), &d->start, PREDICTED(d)), 0, "tape_flush");
    holds(d->start == 2 && d->image[0] == 0x11, "the flush that the tape foretold");
    answers(skaldrift_tape_write(STATE(d, WORDS), IMAGE(d), LOG(d), ALL(tape), d->start, PREDICTED(d), 7, ALL(row)), 0, "tape_write");
    answers(skaldrift_tape_cut(STATE(d, WORDS), IMAGE(d), LOG(d), ALL(tape), &d->start, PREDICTED(d), &d->report), 0, "tape_cut");
    holds(d->start == 4 && d->report == 0 && d->image[7] == 0x11, "the cut that the tape foretold keeps nothing");
    answers(skaldrift_setup(IMAGE(d), 3, 1), 0, "setup");
    answers(skaldrift_run(IMAGE(d), LOG(d), WORK(d), 3, 1, 2, 1000), 0, "run");
    holds(d->image[3] == 1 && d->log[0] == 2 && d->log[1] == 1, "the run ends on the first value");
}

int main(void)
{
    static desk d;
    answers(skaldrift_state_words(), WORDS, "state_words");
    refused(&d);
    done(&d);
    puts("every function refuses what it should, and does what it should");
    return EXIT_SUCCESS;
}
