/*
 * A desk's day in C: a table is opened, one delta is admitted, another is denied, the power goes, and the table opens
 * again. Every answer is checked; the exit status is 0 only if each is the one that the table of refusals says.
 */
#include <skaldrift.h>

#include <inttypes.h>
#include <stdbool.h>
#include <stdio.h>
#include <stdlib.h>
#include <string.h>

#define TABLE_BYTES 16

/* The sheet says that byte 7 equals byte 8: a formula's two halves, which lie in two chunks. */
static const uint8_t sheet[] = {0x14, 0x00, 0x1C, 0x00, 0x20};

static uint64_t state[SKALDRIFT_STATE_WORDS];
static uint8_t image[TABLE_BYTES];
static uint8_t log_bytes[SKALDRIFT_LOG_BYTES];
static uint8_t work[TABLE_BYTES];

static void expect(bool good, const char *what)
{
    if (!good) {
        fprintf(stderr, "desk: not so: %s\n", what);
        exit(EXIT_FAILURE);
    }
}

static uint64_t open_table(void)
{
    return skaldrift_open(state, SKALDRIFT_STATE_WORDS, image, TABLE_BYTES, log_bytes, SKALDRIFT_LOG_BYTES,
                          sheet, sizeof sheet);
}

static uint64_t patch(uint64_t addr, const uint8_t *delta, size_t delta_len, uint64_t *report)
{
    return skaldrift_gate(state, SKALDRIFT_STATE_WORDS, image, TABLE_BYTES, log_bytes, SKALDRIFT_LOG_BYTES,
                          sheet, sizeof sheet, work, TABLE_BYTES, addr, delta, delta_len, report);
}

int main(void)
{
    static const uint8_t tint[] = {0xAA};
    static const uint8_t halves[] = {0xBB, 0xBB};
    static const uint8_t keep_chunk_0[] = {0x80};
    uint64_t report = 0;

    expect(skaldrift_state_words() == SKALDRIFT_STATE_WORDS, "a state has 65 words");

    expect(open_table() == SKALDRIFT_DONE, "the table opens");
    puts("opened");

    expect(patch(3, tint, sizeof tint, &report) == SKALDRIFT_DONE, "the first delta is admitted");
    expect(report == 1, "it has one choice point");
    expect(work[3] == 0xAA, "the working image has it");
    printf("admitted: %" PRIu64 " choice point\n", report);

    expect(patch(7, halves, sizeof halves, &report) == SKALDRIFT_DENIED, "the second delta is denied");
    expect(report == 2, "choice 2 is the first bad one");
    expect(work[7] == 0xBB && work[8] == 0x00, "it leaves the formula half new, half old");
    expect(state[0] == 1, "the denied delta is not recorded");
    printf("denied: choice %" PRIu64 " leaves byte 7 = %02X and byte 8 = %02X\n", report, work[7], work[8]);

    expect(skaldrift_cut(state, SKALDRIFT_STATE_WORDS, image, TABLE_BYTES, log_bytes, SKALDRIFT_LOG_BYTES,
                         keep_chunk_0, sizeof keep_chunk_0, &report) == SKALDRIFT_DONE, "the power goes");
    expect(report == 1, "one piece is kept");
    printf("power cut: %" PRIu64 " piece kept\n", report);

    memset(state, 0xFF, sizeof state);
    expect(open_table() == SKALDRIFT_DONE, "the table opens again, whatever the state's memory held");
    puts("opened");

    expect(skaldrift_read(state, SKALDRIFT_STATE_WORDS, image, TABLE_BYTES, log_bytes, SKALDRIFT_LOG_BYTES,
                          work, TABLE_BYTES, 3, 1) == SKALDRIFT_DONE, "byte 3 is read");
    expect(work[3] == 0xAA && work[7] == 0x00 && work[8] == 0x00, "the first delta stands, the second left nothing");
    printf("read: byte 3 = %02X\n", work[3]);

    expect(skaldrift_flush(state, SKALDRIFT_STATE_WORDS - 1, image, TABLE_BYTES, log_bytes, SKALDRIFT_LOG_BYTES)
           == SKALDRIFT_BAD_STATE, "a state of 64 words is refused");
    expect(skaldrift_open(state, SKALDRIFT_STATE_WORDS, NULL, 0, log_bytes, SKALDRIFT_LOG_BYTES, NULL, 0)
           == SKALDRIFT_BAD_SHEET, "null pointers of length 0 are an empty image and an empty sheet");
    puts("refused: 64 words, and an empty sheet");
    return EXIT_SUCCESS;
}
