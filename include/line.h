/*
 * line.h - checker and timetable of a measuring line, for a master's firmware.
 *
 * Three functions. Each takes the bytes of a book (a table of probes with their starts), answers one
 * question about it, and writes the answer into 20 bytes that the caller lends.
 *
 *     line_check        is the wire never held by two probes on the same tick?
 *     line_holder       which probe holds the wire on this tick?
 *     line_next_start   which probe starts the next read, from this tick on, and when?
 *
 * They take any bytes, come to an end, and refuse what is wrong by a number. They are in
 * target/staticlib/libmasters.a, which `make build` writes; put its name behind your own files:
 *
 *     cc -Iinclude master.c target/staticlib/libmasters.a
 *
 * The archive is for x86-64 alone, from x86-64-v2 on (with SSE4.2 and POPCNT), with the System V calling
 * convention, as on Linux: the stack is aligned to 16 bytes at a call, and SSE registers are used, which an
 * interrupt that calls these functions must save. Of the C library the archive needs memset and nothing else.
 *
 *
 * THE ARGUMENTS
 *
 * book, book_len      The book and its length in bytes. Any length is allowed; above 3,584 no byte is looked at. The
 *                     bytes are only read. Nobody may change them during the call.
 * tick                The tick asked about: 0 to 1,099,511,627,776 (2^40). A later one is refused by 11.
 * answer, answer_len  The lent bytes, 20 or more. Bytes past the twentieth stay as they are. What stood in the first
 *                     20 does not matter.
 *
 * A pointer must point to as many bytes as its length says. With length 0 it may be any pointer, NULL too.
 * Book and answer must not overlap. No alignment is needed.
 *
 * The functions have no state, use no heap, make no system call and take no lock: they may be called again
 * before a call is over, from other threads or an interrupt, as long as the lent bytes are not the same.
 *
 * Stack: a call took at most 3,328 bytes, its return address included, when it was measured (`make stack`,
 * docs/FIGURES.md); set aside LINE_STACK_BYTES. That is a measurement of this archive and not a proof. It
 * counts memset, and not what an interrupt takes. There is no recursion.
 *
 *
 * THE 20 BYTES
 *
 * Numbers stand least byte first.
 *
 *     bytes  0 to  3   number          the same as the value returned
 *     bytes  4 to  7   index
 *     bytes  8 to 11   second index
 *     bytes 12 to 19   tick
 *
 * All 20 are written on every return but 7, refusals included. What the table below does not name is 0.
 *
 * Index 4,294,967,295 (LINE_NONE) is the mark for "no probe": idle, or no start.
 *
 *
 * THE NUMBERS
 *
 * No other number comes back. They stand in the order in which they are asked: the first that applies is
 * given, for the lowest block or probe that it applies to; 21, 22 and 23 are asked of block 0, then of
 * block 1, and so on.
 *
 *     no.  meaning                                                   index   second index   tick
 *      7   answer_len is below 20; nothing is written                 -       -              -
 *     20   the book's length is 0, no multiple of 512, or above 3,584 0       0              0
 *     21   a sum of a block is wrong                                  block   0              0
 *     22   n is above 256, or a field of the block's bytes 0 to 11    block   0              0
 *          is not what the book's length and the rules ask for
 *     23   an unused record of the block is not zero                  block   0              0
 *      3   a period is not 1 to 1,048,576                             probe   0              0
 *      4   a read length is 0, or above the least period              probe   0              0
 *      5   a period neither divides nor is divided by that of some    probe   0              0
 *          earlier probe
 *      6   the longest period is more than 4,096 times the least      0       0              0
 *      9   a start is not below its period                            probe   0              0
 *     10   line_check: two probes meet on the wire                    probe   probe          first tick held by both
 *     11   line_holder, line_next_start: the tick is above 2^40       0       0              0
 *      0   line_check: no two probes ever meet                        0       0              0
 *      0   line_holder: the lowest probe that holds the tick          probe   0              0
 *      0   line_holder: nobody holds the tick                         mark    0              0
 *      0   line_next_start: the least tick from the one asked on at   probe   0              that tick
 *          which a probe starts a read; the lowest probe then
 *      0   line_next_start: the book has no probe                     mark    0              0
 *
 * line_check never gives 11; line_holder and line_next_start never give 10. Numbers 1, 2 and 24, which
 * other parts of this software know, never come back: a book that is read has columns of one length with at
 * most 256 entries.
 *
 * Probes and blocks are numbered from 0. With 10 the index is below the second index: the pair with the
 * least first number, then the least second, and the first tick that these two share; another pair may meet
 * earlier. line_holder and line_next_start answer for a list that is not clean too. A next start is at most
 * 1,048,575 ticks after the tick asked about, so it may be above 2^40.
 *
 *
 * THE BOOK
 *
 * One block of 512 bytes for each 41 probes or part of 41, one block for no probe: at most seven. Numbers
 * stand least byte first.
 *
 *     bytes   0 to   1   number of this block, from 0
 *     bytes   2 to   3   blocks in the book
 *     bytes   4 to   5   records in this block: 41 in all but the last
 *     bytes   6 to   7   n, the probes in the book, 0 to 256; the same in each block
 *     bytes   8 to  11   zero
 *     bytes  12 to 503   41 records of 12 bytes: period, read length, start, 4 bytes each; unused records are zero
 *     bytes 504 to 507   the sum of bytes 0 to 503
 *     bytes 508 to 511   the sum of (place + 1) times byte, over bytes 0 to 503
 *
 * A probe with period T, read length p and start s holds tick t when t >= s and the remainder of t - s by T
 * is below p. It starts a read on tick s, and again each T ticks.
 */
#ifndef LINE_H
#define LINE_H

#include <stddef.h>
#include <stdint.h>

/* The bytes of an answer, and where in them each part begins. */
#define LINE_ANSWER_BYTES 20
#define LINE_AT_NUMBER 0
#define LINE_AT_INDEX 4
#define LINE_AT_SECOND 8
#define LINE_AT_TICK 12

/* The mark: no probe. */
#define LINE_NONE UINT32_C(4294967295)

/* The longest book in bytes, and the last tick that may be asked about. */
#define LINE_BOOK_BYTES 3584
#define LINE_LAST_TICK UINT64_C(1099511627776)

/* Stack to set aside for a call: what was measured, and some more. */
#define LINE_STACK_BYTES 4096

/* What comes back. */
#define LINE_DONE 0
#define LINE_BAD_PERIOD 3
#define LINE_BAD_LENGTH 4
#define LINE_BAD_CHAIN 5
#define LINE_TOO_MANY_ROWS 6
#define LINE_ANSWER_TOO_SHORT 7
#define LINE_BAD_START 9
#define LINE_MEETING 10
#define LINE_TICK_TOO_LATE 11
#define LINE_BOOK_SIZE 20
#define LINE_BOOK_SUM 21
#define LINE_BOOK_FIELD 22
#define LINE_BOOK_UNUSED 23

#ifdef __cplusplus
extern "C" {
#endif

/* Whether no two probes ever hold the wire on the same tick: 0, or 10 with the pair and its first shared tick. */
uint32_t line_check(const uint8_t *book, size_t book_len, uint8_t *answer, size_t answer_len);

/* The lowest probe that holds the tick, as the index; LINE_NONE when the wire is idle. */
uint32_t line_holder(const uint8_t *book, size_t book_len, uint64_t tick, uint8_t *answer, size_t answer_len);

/*
 * The least tick, from the one asked on, at which a probe starts a read, and the lowest such probe as the index;
 * LINE_NONE where the book has no probe.
 */
uint32_t line_next_start(const uint8_t *book, size_t book_len, uint64_t tick, uint8_t *answer, size_t answer_len);

#ifdef __cplusplus
}
#endif

#endif
