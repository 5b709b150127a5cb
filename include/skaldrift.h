/*
 * Skaldrift: a formula table in persistent memory that a power cut cannot leave half patched.
 *
 * Link with libskaldrift.a, for x86-64 Linux (`./archive` writes target/staticlib/libskaldrift.a):
 *
 *     cc -I include main.c target/staticlib/libskaldrift.a
 *
 * C11 and C++11. It allocates nothing; of the C library it uses memcpy and memset.
 *
 * Every function here is proved: it ends, stays inside the memory that it is lent, and answers and leaves behind
 * exactly what is said below, for all inputs. None trusts its caller to have checked anything. What no proof can
 * see are the caller's two duties:
 *
 *     Each pointer leads to as many elements as the length after it says (`report` and `start` to one number), and
 *     no buffer that a call may change overlaps another buffer of the same call.
 *
 *     The stack that a call runs on has SKALDRIFT_STACK_BYTES left. This is measured, not proved: `./stack` runs each
 *     function of this archive, with a full log and the deepest sheets, and fails if one needs more. Bind memcpy and
 *     memset at start (-z now): bound lazily, the first call took 2,584 bytes of the dynamic linker's more.
 *
 * A buffer that a call may change is one without `const`. A null pointer is fine where the length is 0; `report` and
 * `start` are never null. The library keeps nothing between calls, so threads need a lock only for a buffer that one of
 * them may change.
 *
 * HOW A DESK USES IT
 * The library drives no memory module: it says what may be done to one. `image` is the table as the module held it at
 * the last flush, in ordinary memory.
 *   Start      Read the module into `image` and call skaldrift_open. State and log may hold anything before.
 *   A delta    Call skaldrift_gate. On 0 store the delta to the module, before the next one, and what falls into one
 *              aligned chunk of 8 bytes in one store. When the module's own flush is through, call skaldrift_flush.
 *   A reader   Call skaldrift_read, which sees the outstanding writes too.
 *   Power loss Start again. What the module holds then is one of the images that the gate has judged, so the opening
 *              is done.
 * The promise holds as long as sheet and length stay the same, every call is handed the state as the calls before left
 * it, nothing else touches image, state and log, and a write is recorded only when it was admitted: by skaldrift_gate,
 * or by skaldrift_write or skaldrift_tape_write right after skaldrift_judge answered 0 on that same state.
 * skaldrift_cut and the tape calls play power cuts through: for tests, and for engineers who want to see what is left.
 * A session by tape makes every recorded write, flush and cut by the tape, judges each write first, and opens again
 * only on an empty log.
 *
 * THE BUFFERS
 *   state      65 words: the count of outstanding writes, then address and length of each of 32 records, oldest
 *              first. Old records past the count stay where they are. Only the calls write it.
 *   image      the table, L bytes, at most 4096; L is the length that this call is handed.
 *   log        1024 bytes: the outstanding writes' data, packed oldest first.
 *   work       a working image of L bytes.
 *   sheet      the rule sheet, at most 512 bytes (below).
 *   rows       a row table: one row of SKALDRIFT_ROW_BYTES(L) bytes for each outstanding write, oldest first. Bit c
 *              of a row (chunk 0 in the top bit of its first byte) keeps the write's bytes in chunk c. The bits
 *              after the last chunk are 0.
 *   tape       epochs: a header byte, 0x80 (a flush will end it) or 0x00 (a cut will), then one row for each write,
 *              under 0x80 too. Every call by tape looks at all rows of the epoch so far, a write at its own too.
 *   start      where the epoch begins on the tape: 0 at first, then what the last tape flush or cut left. An opening
 *              keeps it.
 *   predicted  an image of L bytes: what the tape says is to come.
 *
 * THE SHEET
 * Bits, most significant first: edition (4 bits, 1), one rule, then fewer than 8 zero bits to the byte's end. A rule is
 *   00  address (16) low (8) high (8)   that byte is from low to high
 *   01  address (16) address (16)       the two bytes are equal
 *   10  count (6) members               all of the rules that follow hold; with none, true
 *   11  count (6) members               any of them holds; with none, false
 * An address at or past L makes its rule false. Depth is at most 8: a clause or an empty group has 1, another group one
 * more than its deepest member.
 *   18 00                          always holds
 *   1C 00                          never holds
 *   14 00 1C 00 20                 byte 7 equals byte 8
 *   1C 20 00 0C 44 44 00 03 22 22  byte 3 is 0x11 or 0x22
 *
 * CHOICE POINTS
 * Each chunk that an outstanding write touches is one: points are numbered from 0, oldest write first, lowest chunk
 * first. Choice number m keeps point i exactly if bit i of m is 1, and what it doesn't keep is lost.
 *
 * ANSWERS
 * Every call but skaldrift_state_words answers one of the numbers below, the first that applies in the order
 * 1, 5, 2, 3, 4, 12, 6, 7, 8, 10, 9, 11 among those it can meet, and 0 otherwise. Every refusal leaves all memory as it
 * was, the state, the start and `report` too, but for 8, which says so. On 0 whatever isn't named stays as it was. A
 * state that is not 65 words is 1 at every call.
 *
 * AFTER A REFUSAL
 *   1           A length is wrong, or something overwrote the state: mend it, or open again.
 *   2           The delta doesn't fit the table.
 *   3, 4, 7     Flush, and try again. On an empty log the delta itself is too large: send it in parts.
 *   5           Mend the sheet.
 *   6           The table isn't one that the sheet allows: don't dose by it, restore it.
 *   8           Nothing was recorded. `work` is an image that a power cut could have left and that breaks the sheet:
 *               flush first, or send the delta in another order.
 *   9, 10, 11   The rows or the tape don't fit the log.
 * A verdict at 16 choice points tries 65536 images (docs/BENCH.md has times).
 */
#ifndef SKALDRIFT_H
#define SKALDRIFT_H

#include <stddef.h>
#include <stdint.h>

#ifdef __cplusplus
extern "C" {
#endif

/* Done. */
#define SKALDRIFT_DONE UINT64_C(0)
/* L over 4096; a record outside L or over the log's budgets; a state that is not 65 words; a log buffer that is not
 * 1024 bytes; a working or predicted image that is not L bytes. */
#define SKALDRIFT_BAD_STATE UINT64_C(1)
/* addr + len > L, in whole numbers. */
#define SKALDRIFT_OUT_OF_RANGE UINT64_C(2)
/* 32 writes are outstanding. */
#define SKALDRIFT_TOO_MANY_WRITES UINT64_C(3)
/* The outstanding bytes and these are more than 1024. */
#define SKALDRIFT_TOO_MANY_BYTES UINT64_C(4)
/* The sheet is empty, too long, of another edition, cut short, too deep or badly filled. */
#define SKALDRIFT_BAD_SHEET UINT64_C(5)
/* Opening: the image breaks the sheet. */
#define SKALDRIFT_BROKEN_IMAGE UINT64_C(6)
/* More than 16 choice points. */
#define SKALDRIFT_TOO_MANY_POINTS UINT64_C(7)
/* Denied: some image that a cut could leave breaks the sheet. */
#define SKALDRIFT_DENIED UINT64_C(8)
/* Rows of wrong length, or a filling bit set. */
#define SKALDRIFT_BAD_ROWS UINT64_C(9)
/* The tape's header is missing or neither 0x80 nor 0x00, or there are too few bytes for a row. */
#define SKALDRIFT_BAD_TAPE UINT64_C(10)
/* A flush under 0x00, or a cut under 0x80. */
#define SKALDRIFT_NOT_PREDICTED UINT64_C(11)
/* The example: more than 1000 rounds. */
#define SKALDRIFT_TOO_MANY_ROUNDS UINT64_C(12)

/* The sizes. */
#define SKALDRIFT_STATE_WORDS 65
#define SKALDRIFT_LOG_BYTES 1024
#define SKALDRIFT_IMAGE_LIMIT 4096
#define SKALDRIFT_WRITES_LIMIT 32
#define SKALDRIFT_SHEET_LIMIT 512
#define SKALDRIFT_POINTS_LIMIT 16
#define SKALDRIFT_ROUNDS_LIMIT 1000
#define SKALDRIFT_CHUNK_SIZE 8
/* The stack that a caller provides. */
#define SKALDRIFT_STACK_BYTES 8192
/* The chunks of an image of L bytes, and the bytes of a row for it. */
#define SKALDRIFT_CHUNKS(L) (((L) + SKALDRIFT_CHUNK_SIZE - 1) / SKALDRIFT_CHUNK_SIZE)
#define SKALDRIFT_ROW_BYTES(L) ((SKALDRIFT_CHUNKS(L) + 7) / 8)
/* The header byte of an epoch that a flush will end, and of one that a cut will. */
#define SKALDRIFT_FLUSH_HEADER 0x80
#define SKALDRIFT_CUT_HEADER 0x00

/* 65, for a program that would rather ask: what it was built for against what it links. */
uint64_t skaldrift_state_words(void);

/*
 * Opens a table: judges the image by the sheet and starts an empty log. Of the state only its length is looked at,
 * since after a power loss it holds anything. 0: all 65 words are 0; image and log stay. Else 1, 5, 6.
 */
uint64_t skaldrift_open(uint64_t *state, size_t state_words,
                        const uint8_t *image, size_t image_len,
                        const uint8_t *log, size_t log_len,
                        const uint8_t *sheet, size_t sheet_len);

/*
 * Records a write of `data` at `addr`, judged by nobody. 0: the data stand in the log behind the outstanding ones,
 * the record at index count, and the count is one more. Else 1, 2, 3, 4.
 */
uint64_t skaldrift_write(uint64_t *state, size_t state_words,
                         const uint8_t *image, size_t image_len,
                         uint8_t *log, size_t log_len,
                         uint64_t addr,
                         const uint8_t *data, size_t data_len);

/*
 * Reads. 0: `work` is the read image, the image with all outstanding writes applied, and the asked part is
 * work[addr] to work[addr + len - 1]. Else 1, 2.
 */
uint64_t skaldrift_read(const uint64_t *state, size_t state_words,
                        const uint8_t *image, size_t image_len,
                        const uint8_t *log, size_t log_len,
                        uint8_t *work, size_t work_len,
                        uint64_t addr, uint64_t len);

/* Makes the read image the image. 0: the count is 0; old records and log bytes stay. Else 1. */
uint64_t skaldrift_flush(uint64_t *state, size_t state_words,
                         uint8_t *image, size_t image_len,
                         const uint8_t *log, size_t log_len);

/*
 * A power cut that keeps what the rows say. 0: the image is the replay with the rows, the count is 0, and `report`
 * is the kept count: the set bits among the chunks that each write touches, summed. Else 1, 9.
 */
uint64_t skaldrift_cut(uint64_t *state, size_t state_words,
                       uint8_t *image, size_t image_len,
                       const uint8_t *log, size_t log_len,
                       const uint8_t *rows, size_t rows_len,
                       uint64_t *report);

/*
 * Judges a write of `data` at `addr` and records nothing. With n the choice points of the log and this write, every
 * image that a cut could leave is tried, choice number m from 0 to 2^n - 1 keeping point i exactly if bit i of m is 1.
 * 0: every one obeys the sheet; `report` is n and `work` the read image with the write.
 * 8: `report` is the least bad m and `work` that bad image. Else 1, 5, 2, 3, 4, 7.
 */
uint64_t skaldrift_judge(const uint64_t *state, size_t state_words,
                         const uint8_t *image, size_t image_len,
                         const uint8_t *log, size_t log_len,
                         const uint8_t *sheet, size_t sheet_len,
                         uint8_t *work, size_t work_len,
                         uint64_t addr,
                         const uint8_t *data, size_t data_len,
                         uint64_t *report);

/* The gate: answers, reports and leaves `work` as skaldrift_judge does, and on 0 records the write as skaldrift_write does. */
uint64_t skaldrift_gate(uint64_t *state, size_t state_words,
                        const uint8_t *image, size_t image_len,
                        uint8_t *log, size_t log_len,
                        const uint8_t *sheet, size_t sheet_len,
                        uint8_t *work, size_t work_len,
                        uint64_t addr,
                        const uint8_t *data, size_t data_len,
                        uint64_t *report);

/*
 * Records a write as skaldrift_write does, in the epoch that starts at byte `start` of the tape. 0: `predicted` is the
 * replay of the log with the epoch's rows (whole under 0x80), whatever it held before. Else 1, 2, 3, 4, 10, 9.
 */
uint64_t skaldrift_tape_write(uint64_t *state, size_t state_words,
                              const uint8_t *image, size_t image_len,
                              uint8_t *log, size_t log_len,
                              const uint8_t *tape, size_t tape_len,
                              uint64_t start,
                              uint8_t *predicted, size_t predicted_len,
                              uint64_t addr,
                              const uint8_t *data, size_t data_len);

/*
 * A flush where the tape foretells one. 0: the image and `predicted` are the read image, the count is 0, and `start` is
 * past the epoch's header and rows. Else 1, 10, 9, 11.
 */
uint64_t skaldrift_tape_flush(uint64_t *state, size_t state_words,
                              uint8_t *image, size_t image_len,
                              const uint8_t *log, size_t log_len,
                              const uint8_t *tape, size_t tape_len,
                              uint64_t *start,
                              uint8_t *predicted, size_t predicted_len);

/*
 * A cut where the tape foretells one. 0: the image and `predicted` are the replay with the epoch's rows, the count is 0,
 * `start` is past the epoch's header and rows, and `report` is the kept count. Else 1, 10, 9, 11.
 */
uint64_t skaldrift_tape_cut(uint64_t *state, size_t state_words,
                            uint8_t *image, size_t image_len,
                            const uint8_t *log, size_t log_len,
                            const uint8_t *tape, size_t tape_len,
                            uint64_t *start,
                            uint8_t *predicted, size_t predicted_len,
                            uint64_t *report);

/* The example application's setup. 0: the byte at `addr` is val0; every other byte stays. Else 1, 2. */
uint64_t skaldrift_setup(uint8_t *image, size_t image_len, uint64_t addr, uint8_t val0);

/*
 * The example application: opens the image under the sheet "byte addr is val0 or val1", and `rounds` times writes val0 and
 * val1 through the gate, flushes, writes val1 and val0, and flushes. It is proved that no write is denied after a good
 * opening. 0: with no rounds nothing changes; otherwise the byte at `addr` is val0 and every other byte of the image stays,
 * `work` is the image, and the log's first two bytes are val1 and val0. Else 1, 2, 12, 6.
 */
uint64_t skaldrift_run(uint8_t *image, size_t image_len,
                       uint8_t *log, size_t log_len,
                       uint8_t *work, size_t work_len,
                       uint64_t addr, uint8_t val0, uint8_t val1, uint64_t rounds);

#ifdef __cplusplus
}
#endif

#endif
