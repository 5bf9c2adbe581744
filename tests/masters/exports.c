/*
 * The three exports for masters, called from C: every number, all 20 bytes, buffers of exactly their size.
 *
 * The archive itself is not watched by the sanitizers. So slices lie not only on the heap but also right before and right
 * behind a page that may not be touched: a byte read or written outside a slice then ends the run. Questions that are few
 * are asked in every place, those that are many in one place each, in turn.
 */
#define _DEFAULT_SOURCE
#include <stdio.h>
#include <sys/mman.h>

#include "expected.h"
#include "line.h"

static unsigned long calls, wrong, reached[FUNCTIONS][32];
static const char *const names[FUNCTIONS] = {"line_check", "line_holder", "line_next_start"};

/* Where the slices of a call lie. */
enum place { HEAP, ODD, BEFORE_FENCE, AFTER_FENCE, PLACES };
enum { PAGE = 4096, ROOM = 2 * PAGE };
struct fence {
    uint8_t *low;
};
static struct fence fences[2];

static void raise_fence(struct fence *fence)
{
    uint8_t *memory = mmap(NULL, ROOM + 2 * PAGE, PROT_READ | PROT_WRITE, MAP_PRIVATE | MAP_ANONYMOUS, -1, 0);
    if (memory == MAP_FAILED || mprotect(memory, PAGE, PROT_NONE) != 0 ||
        mprotect(memory + PAGE + ROOM, PAGE, PROT_NONE) != 0) {
        puts("no fenced memory");
        exit(2);
    }
    fence->low = memory + PAGE;
}

/* A slice of exactly this length, and what to free. */
static uint8_t *lend(enum place place, struct fence *fence, size_t length, void **owned)
{
    *owned = NULL;
    if (place == BEFORE_FENCE)
        return fence->low + ROOM - length;
    if (place == AFTER_FENCE)
        return fence->low;
    uint8_t *memory = malloc(place == ODD ? length + 1 : length);
    if (memory == NULL && length > 0)
        exit(2);
    *owned = memory;
    return place == ODD ? memory + 1 : memory;
}

static uint32_t call(enum asked asked, const uint8_t *book, size_t size, uint64_t tick, uint8_t *answer, size_t length)
{
    if (asked == CHECK)
        return line_check(book, size, answer, length);
    if (asked == HOLDER)
        return line_holder(book, size, tick, answer, length);
    return line_next_start(book, size, tick, answer, length);
}

/* One thing that must hold; what does not is shown with its book. */
static int hold(int good, const char *what, enum asked asked, const uint8_t *book, size_t size, uint64_t tick,
                size_t length)
{
    if (good)
        return 1;
    if (++wrong <= 5) {
        printf("%s, tick %llu, %zu bytes lent: %s\n  book of %zu bytes:", names[asked], (unsigned long long)tick,
               length, what, size);
        for (size_t k = 0; k < size && k < LARGEST; k++)
            printf(" %02x", book[k]);
        puts("");
    }
    return 0;
}

static void fill(uint8_t *bytes, size_t length, uint8_t seed)
{
    for (size_t k = 0; k < length; k++)
        bytes[k] = (uint8_t)(seed ^ (37 * k));
}

/* One call in one place: the number, the 20 bytes, the bytes past them, the book untouched. */
static void one(enum asked asked, const uint8_t *book, size_t size, uint64_t tick, struct answer wanted, size_t length,
                enum place place)
{
    void *owned_book, *owned_answer;
    uint8_t *given = lend(place, &fences[0], size, &owned_book);
    uint8_t *answer = lend(place, &fences[1], length, &owned_answer);
    uint8_t after[256], shown[ANSWER];
    if (size > 0)
        memcpy(given, book, size);
    fill(answer, length, (uint8_t)calls);
    fill(after, length, (uint8_t)calls);
    calls++;
    put(shown, 4, wanted.number);
    put(shown + 4, 4, wanted.index);
    put(shown + 8, 4, wanted.second);
    put(shown + 12, 8, wanted.tick);
    uint32_t number = call(asked, given, size, tick, answer, length);
    if (hold(number < 32, "no number of the list", asked, book, size, tick, length))
        reached[asked][number]++;
    if (length < ANSWER) {
        hold(number == 7, "fewer than 20 bytes, and the number is not 7", asked, book, size, tick, length);
    } else {
        hold(number == wanted.number, "another number", asked, book, size, tick, length);
        memcpy(after, shown, ANSWER);
    }
    hold(length == 0 || memcmp(answer, after, length) == 0, "other bytes", asked, book, size, tick, length);
    hold(size == 0 || memcmp(given, book, size) == 0, "the book is changed", asked, book, size, tick, length);
    free(owned_book);
    free(owned_answer);
}

/* One question in every place and with every length of the lent bytes. */
static void ask_for(enum asked asked, const uint8_t *book, size_t size, uint64_t tick, struct answer wanted)
{
    static const size_t lengths[] = {0, 1, 19, 20, 21, 64, 255};
    for (size_t k = 0; k < sizeof lengths / sizeof *lengths; k++)
        for (int place = 0; place < PLACES; place++)
            one(asked, book, size, tick, wanted, lengths[k], (enum place)place);
}

static void ask(enum asked asked, const uint8_t *book, size_t size, uint64_t tick)
{
    ask_for(asked, book, size, tick, expected(asked, book, size, tick));
}

static void ask_all(const uint8_t *book, size_t size, uint64_t tick)
{
    for (int asked = 0; asked < FUNCTIONS; asked++)
        ask((enum asked)asked, book, size, tick);
}

/* The exports from the first to the last, each in one place and with one length in turn, for cases that are many. */
static void ask_some(int first, int last, const uint8_t *book, size_t size, uint64_t tick)
{
    for (int asked = first; asked <= last; asked++)
        one((enum asked)asked, book, size, tick, expected((enum asked)asked, book, size, tick), ANSWER + calls % 3,
            (enum place)(calls % PLACES));
}

/* A case of the bench sheet, with its answers as document 01 has them or as they follow by hand. */
struct bench {
    size_t n;
    struct probe probes[8];
    uint64_t tick;
    struct answer answers[FUNCTIONS];
};

#define IDLE 4294967295u
#define ALL(...) {{__VA_ARGS__}, {__VA_ARGS__}, {__VA_ARGS__}}
static const struct bench sheet[] = {
    {5,
     {{10, 3, 0}, {20, 4, 13}, {20, 5, 3}, {60, 2, 8}, {60, 3, 17}},
     17,
     {{0, 0, 0, 0}, {0, 4, 0, 0}, {0, 4, 0, 17}}},
    {6,
     {{10, 3, 0}, {20, 4, 13}, {20, 5, 3}, {60, 2, 8}, {60, 3, 17}, {60, 3, 37}},
     0,
     {{0, 0, 0, 0}, {0, 0, 0, 0}, {0, 0, 0, 0}}},
    {6,
     {{10, 3, 0}, {20, 4, 13}, {20, 5, 3}, {60, 2, 8}, {60, 3, 17}, {60, 3, 47}},
     47,
     {{10, 2, 5, 47}, {0, 2, 0, 0}, {0, 5, 0, 47}}},
    {2, {{10, 6, 0}, {10, 5, IDLE}}, 0, ALL(9, 1, 0, 0)},
    {2, {{10, 6, 0}, {10, 4, 6}}, 9, {{0, 0, 0, 0}, {0, 1, 0, 0}, {0, 0, 0, 10}}},
    {7,
     {{8, 2, 0}, {16, 2, 2}, {16, 2, 10}, {32, 4, 4}, {32, 4, 12}, {32, 4, 20}, {32, 4, 28}},
     31,
     {{0, 0, 0, 0}, {0, 6, 0, 0}, {0, 0, 0, 32}}},
    {2, {{10, 5, 8}, {20, 1, 1}}, 2, {{10, 0, 1, 21}, {0, IDLE, 0, 0}, {0, 0, 0, 8}}},
    {1, {{10, 10, 0}}, UINT64_C(1099511627776), {{0, 0, 0, 0}, {0, 0, 0, 0}, {0, 0, 0, UINT64_C(1099511627780)}}},
    {1, {{10, 10, 9}}, 8, {{0, 0, 0, 0}, {0, IDLE, 0, 0}, {0, 0, 0, 9}}},
    {1, {{10, 10, 9}}, UINT64_C(1099511627777), {{0, 0, 0, 0}, {11, 0, 0, 0}, {11, 0, 0, 0}}},
    {1, {{10, 11, 0}}, UINT64_MAX, ALL(4, 0, 0, 0)},
    {2, {{10, 1, 0}, {10, 0, 0}}, 0, ALL(4, 1, 0, 0)},
    {2, {{4, 1, 0}, {6, 1, 0}}, 0, ALL(5, 1, 0, 0)},
    {3, {{4, 1, 0}, {8, 1, 1}, {12, 1, 2}}, 0, ALL(5, 2, 0, 0)},
    {2, {{1, 1, 0}, {4096, 1, 0}}, 0, {{10, 0, 1, 0}, {0, 0, 0, 0}, {0, 0, 0, 0}}},
    {2, {{1, 1, 0}, {8192, 1, 0}}, 0, ALL(6, 0, 0, 0)},
    {2, {{1048576, 256, 0}, {256, 256, 300}}, 0, ALL(9, 1, 0, 0)},
    {3, {{0, 0, 0}, {10, 11, 0}, {1048577, 1, 0}}, 0, ALL(3, 0, 0, 0)},
    {2, {{10, 0, 0}, {1048577, 1, 0}}, 0, ALL(3, 1, 0, 0)},
    {1, {{10, 5, 8}}, 12, {{0, 0, 0, 0}, {0, 0, 0, 0}, {0, 0, 0, 18}}},
    {1, {{10, 5, 10}}, UINT64_MAX, ALL(9, 0, 0, 0)},
    {0, {{0, 0, 0}}, 0, {{0, 0, 0, 0}, {0, IDLE, 0, 0}, {0, IDLE, 0, 0}}},
    {0, {{0, 0, 0}}, UINT64_MAX, {{0, 0, 0, 0}, {11, 0, 0, 0}, {11, 0, 0, 0}}},
};

static void bench_sheet(void)
{
    for (size_t k = 0; k < sizeof sheet / sizeof *sheet; k++) {
        struct line line = {sheet[k].n, {{0, 0, 0}}};
        uint8_t book[LARGEST];
        memcpy(line.probes, sheet[k].probes, sheet[k].n * sizeof(struct probe));
        size_t size = make_book(&line, book);
        for (int asked = 0; asked < FUNCTIONS; asked++) {
            struct answer here = sheet[k].answers[asked],
                          walked = expected((enum asked)asked, book, size, sheet[k].tick);
            int same = here.number == walked.number && here.index == walked.index && here.second == walked.second &&
                       here.tick == walked.tick;
            hold(same, "the walk and the bench sheet differ", (enum asked)asked, book, size, sheet[k].tick, 0);
            ask_for((enum asked)asked, book, size, sheet[k].tick, here);
        }
    }
}

/* n probes of period 512 with reads of one tick, on every second tick. */
static size_t row_book(size_t n, uint8_t *book)
{
    struct line line = {n, {{0, 0, 0}}};
    for (size_t i = 0; i < n; i++) {
        struct probe probe = {512, 1, (uint32_t)(2 * i % 511)};
        line.probes[i] = probe;
    }
    return make_book(&line, book);
}

/* Books of each size: 41 probes take one block, 42 two, 256 seven. */
static void sizes(void)
{
    static const size_t counts[][2] = {{0, 1},  {1, 1},   {40, 1},  {41, 1},  {42, 2}, {82, 2},
                                       {83, 3}, {246, 6}, {247, 7}, {255, 7}, {256, 7}};
    static const uint64_t ticks[] = {0,
                                     1,
                                     2,
                                     509,
                                     510,
                                     511,
                                     512,
                                     513,
                                     UINT64_C(1099511627775),
                                     UINT64_C(1099511627776),
                                     UINT64_C(1099511627777),
                                     UINT64_MAX};
    for (size_t k = 0; k < sizeof counts / sizeof *counts; k++) {
        uint8_t book[LARGEST];
        size_t size = row_book(counts[k][0], book);
        hold(size == counts[k][1] * BLOCK, "another number of blocks", CHECK, book, size, 0, 0);
        for (size_t t = 0; t < sizeof ticks / sizeof *ticks; t++) {
            ask(HOLDER, book, size, ticks[t]);
            ask(NEXT_START, book, size, ticks[t]);
        }
        ask(CHECK, book, size, 0);
    }
}

/* Every byte of a book changed, with the sums as they were and mended; every length up to its own; longer ones. */
static void damage(size_t n)
{
    uint8_t book[LARGEST + BLOCK], changed[LARGEST];
    memset(book, 0, sizeof book);
    size_t size = row_book(n, book);
    for (size_t at = 0; at < size; at++) {
        int first = n > 2 && at % 5 != 0 ? HOLDER : CHECK; /* many pairs take long to walk */
        for (int step = 1; step < 256; step += 127) {
            memcpy(changed, book, size);
            changed[at] = (uint8_t)(changed[at] + step);
            ask_some(first, NEXT_START, changed, size, at);
            mend(changed, size);
            ask_some(first, NEXT_START, changed, size, at);
        }
    }
    for (size_t cut = 0; cut < size; cut++)
        ask_some(CHECK, NEXT_START, book, cut, 0);
    for (size_t more = 1; more <= BLOCK; more++)
        ask_some(CHECK, NEXT_START, book, size + more, 0);
}

/* A field of one block, or of all, set and the sums mended. */
static void field(uint8_t *book, size_t size, size_t block, size_t at, uint32_t value, struct answer wanted)
{
    uint8_t changed[LARGEST];
    memcpy(changed, book, size);
    for (size_t b = 0; b < size / BLOCK; b++)
        if (b == block || block == 7)
            put(changed + b * BLOCK + at, 2, value);
    mend(changed, size);
    for (int asked = 0; asked < FUNCTIONS; asked++)
        ask_for((enum asked)asked, changed, size, 0, wanted);
}

/* 20 to 23 by hand: which field, which block, and what comes first. */
static void refusals_of_books(void)
{
    uint8_t book[LARGEST + 512], copy[LARGEST];
    memset(book, 0, sizeof book);
    size_t size = row_book(256, book);
    static const uint32_t beyond[] = {0, 1, 246, 255, 257, 287, 288, 65535};
    for (size_t k = 0; k < sizeof beyond / sizeof *beyond; k++)
        field(book, size, 7, 6, beyond[k], beyond[k] == 255 ? says(22, 6, 0, 0) : says(22, 0, 0, 0));
    for (size_t b = 0; b < 7; b++) {
        field(book, size, b, 0, (uint32_t)b + 1, says(22, (uint32_t)b, 0, 0));
        field(book, size, b, 2, 6, says(22, (uint32_t)b, 0, 0));
        field(book, size, b, 4, 40, says(22, (uint32_t)b, 0, 0));
        field(book, size, b, 8, 1, says(22, (uint32_t)b, 0, 0));
        field(book, size, b, 10, 256, says(22, (uint32_t)b, 0, 0));
        field(book, size, b, 6, 255, b == 0 ? says(22, 1, 0, 0) : says(22, (uint32_t)b, 0, 0));
    }
    field(book, size, 6, 502, 256, says(23, 6, 0, 0));
    field(book, size, 6, 12 + 10 * 12, 1, says(23, 6, 0, 0));
    /* a wrong field of block 0 comes before a wrong sum of block 1, and a wrong sum of block 0 before both */
    size = row_book(42, book);
    memcpy(copy, book, size);
    put(copy + 6, 2, 41);
    mend(copy, size);
    copy[600]++;
    ask_for(CHECK, copy, size, 0, says(22, 0, 0, 0));
    copy[504]++;
    ask_for(CHECK, copy, size, 0, says(21, 0, 0, 0));
    size = row_book(0, book);
    memcpy(copy, book, size);
    copy[503] = 1;
    ask_for(HOLDER, copy, size, UINT64_MAX, says(21, 0, 0, 0));
    mend(copy, size);
    ask_for(HOLDER, copy, size, UINT64_MAX, says(23, 0, 0, 0));
    /* two bytes changed places: the first sum stands, the second does not */
    size = row_book(2, book);
    memcpy(copy, book, size);
    copy[12] = book[13];
    copy[13] = book[12];
    ask_for(NEXT_START, copy, size, 0, says(21, 0, 0, 0));
    memset(book, 0, sizeof book);
    ask_all(book, LARGEST + 1, 0);
    ask_all(book, LARGEST + 512, 0);
}

/* Slices of length 0 with any pointer, and a book that is too long and may not be read. */
static void empty_slices(void)
{
    uint8_t book[LARGEST], answer[ANSWER], twenty[ANSWER] = {20};
    size_t size = row_book(1, book);
    const uint8_t *nowhere[] = {NULL,
                                (const uint8_t *)1,
                                fences[0].low - 1,
                                fences[0].low + ROOM,
                                book + sizeof book,
                                (const uint8_t *)(UINTPTR_MAX - 7)};
    for (int asked = 0; asked < FUNCTIONS; asked++)
        for (size_t k = 0; k < sizeof nowhere / sizeof *nowhere; k++) {
            uint8_t *lent = (uint8_t *)(uintptr_t)nowhere[k];
            memset(answer, 0xEE, sizeof answer);
            uint32_t number = call((enum asked)asked, nowhere[k], 0, 0, answer, sizeof answer);
            hold(number == 20 && memcmp(answer, twenty, ANSWER) == 0, "no book, and not 20", (enum asked)asked, book, 0,
                 0, ANSWER);
            reached[asked][20]++;
            hold(call((enum asked)asked, book, size, 0, lent, 0) == 7, "no bytes lent, and not 7", (enum asked)asked,
                 book, size, 0, 0);
            hold(call((enum asked)asked, nowhere[k], 0, 0, lent, 0) == 7, "no bytes at all, and not 7",
                 (enum asked)asked, book, 0, 0, 0);
            reached[asked][7] += 2;
            calls += 3;
        }
    size_t huge = (size_t)1 << 32;
    uint8_t *shut = mmap(NULL, huge, PROT_NONE, MAP_PRIVATE | MAP_ANONYMOUS | MAP_NORESERVE, -1, 0);
    if (shut == MAP_FAILED) {
        puts("no room for a book that may not be read");
        exit(2);
    }
    for (int asked = 0; asked < FUNCTIONS; asked++)
        for (size_t length = LARGEST + 1; length <= huge; length = length < 4096 ? 4096 : 2 * length) {
            memset(answer, 0xEE, sizeof answer);
            uint32_t number = call((enum asked)asked, shut, length, 0, answer, sizeof answer);
            hold(number == 20 && memcmp(answer, twenty, ANSWER) == 0, "a long book, and not 20", (enum asked)asked,
                 book, 0, length, ANSWER);
            reached[asked][20]++;
            calls++;
        }
    /* and with fewer than 20 bytes no book is looked at */
    for (int asked = 0; asked < FUNCTIONS; asked++) {
        hold(call((enum asked)asked, shut, 512, UINT64_MAX, answer, 19) == 7, "7 is not before all else",
             (enum asked)asked, book, 0, 0, 19);
        reached[asked][7]++;
        calls++;
    }
    munmap(shut, huge);
}

/* Every line of three probes with the periods 2, 4 and 12 in each turn, reads of one or two ticks; every tick of two
 * longest periods. */
static void small_lines(void)
{
    static const uint32_t periods[] = {2, 4, 12};
    uint8_t book[LARGEST];
    for (uint32_t code = 0; code < 3 * 8 * 2 * 4 * 12; code++) {
        struct line line = {3, {{0, 0, 0}}};
        uint32_t turn = code % 3, rest = code / 3;
        for (uint32_t k = 0; k < 3; k++) {
            struct probe *probe = &line.probes[(k + turn) % 3];
            probe->period = periods[k];
            probe->length = 1 + rest % 2;
            rest /= 2;
            probe->start = rest % periods[k];
            rest /= periods[k];
        }
        size_t size = make_book(&line, book);
        ask_some(CHECK, CHECK, book, size, 0);
        for (uint64_t tick = 0; tick < 24; tick++)
            ask_some(HOLDER, NEXT_START, book, size, tick);
    }
}

/* Each number of each export at least once, and no other. */
static int all_reached(void)
{
    static const uint8_t often[FUNCTIONS][13] = {{0, 3, 4, 5, 6, 7, 9, 10, 20, 21, 22, 23, 32},
                                                 {0, 3, 4, 5, 6, 7, 9, 11, 20, 21, 22, 23, 32},
                                                 {0, 3, 4, 5, 6, 7, 9, 11, 20, 21, 22, 23, 32}};
    int good = 1;
    for (int asked = 0; asked < FUNCTIONS; asked++) {
        printf("%s:", names[asked]);
        for (unsigned number = 0, k = 0; number < 32; number++) {
            if (often[asked][k] == number) {
                k++;
                printf(" %u %lu times%s", number, reached[asked][number], often[asked][k] == 32 ? "" : ",");
                if (reached[asked][number] == 0)
                    good = 0;
            } else if (reached[asked][number] != 0) {
                printf(" %u, WHICH IS NONE OF ITS NUMBERS,", number);
                good = 0;
            }
        }
        puts("");
    }
    if (!good)
        puts("a number of the list was not reached, or another came back");
    return good;
}

int main(void)
{
    raise_fence(&fences[0]);
    raise_fence(&fences[1]);
    bench_sheet();
    sizes();
    damage(0);
    damage(2);
    damage(42);
    refusals_of_books();
    empty_slices();
    small_lines();
    int good = all_reached();
    printf("%lu calls from C, %lu things wrong\n", calls, wrong);
    return good && wrong == 0 && calls > 0 ? 0 : 1;
}
