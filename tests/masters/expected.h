/*
 * What the exports must answer, worked out from document 01 by walking ticks: books are made and judged here, with
 * no code of the line's software. For tests alone.
 */
#ifndef EXPECTED_H
#define EXPECTED_H

#include <stdint.h>
#include <stdlib.h>
#include <string.h>

enum { BLOCK = 512, RECORDS = 41, SUMMED = 504, PROBES = 256, LARGEST = 3584, ANSWER = 20 };
enum asked { CHECK, HOLDER, NEXT_START, FUNCTIONS };

struct answer {
    uint32_t number, index, second;
    uint64_t tick;
};
struct probe {
    uint32_t period, length, start;
};
struct line {
    size_t n;
    struct probe probes[PROBES];
};

static void put(uint8_t *bytes, size_t count, uint64_t value)
{
    for (size_t k = 0; k < count; k++, value /= 256)
        bytes[k] = (uint8_t)(value % 256);
}

static uint64_t get(const uint8_t *bytes, size_t count)
{
    uint64_t value = 0;
    while (count > 0)
        value = 256 * value + bytes[--count];
    return value;
}

static void sums(const uint8_t *block, uint32_t *plain, uint32_t *by_place)
{
    *plain = *by_place = 0;
    for (uint32_t k = 0; k < SUMMED; k++) {
        *plain += block[k];
        *by_place += (k + 1) * block[k];
    }
}

/* Both sums of every whole block made right. */
static void mend(uint8_t *book, size_t size)
{
    for (size_t at = 0; at + BLOCK <= size; at += BLOCK) {
        uint32_t plain, by_place;
        sums(book + at, &plain, &by_place);
        put(book + at + 504, 4, plain);
        put(book + at + 508, 4, by_place);
    }
}

static size_t blocks_for(size_t n)
{
    return n == 0 ? 1 : (n + RECORDS - 1) / RECORDS;
}

static size_t records_in(size_t n, size_t block)
{
    size_t before = block * RECORDS;
    if (n <= before)
        return 0;
    return n - before < RECORDS ? n - before : RECORDS;
}

/* The book of a line, in LARGEST bytes; its size. */
static size_t make_book(const struct line *line, uint8_t *book)
{
    size_t blocks = blocks_for(line->n);
    memset(book, 0, blocks * BLOCK);
    for (size_t b = 0; b < blocks; b++) {
        put(book + b * BLOCK, 2, b);
        put(book + b * BLOCK + 2, 2, blocks);
        put(book + b * BLOCK + 4, 2, records_in(line->n, b));
        put(book + b * BLOCK + 6, 2, line->n);
    }
    for (size_t i = 0; i < line->n; i++) {
        uint8_t *record = book + i / RECORDS * BLOCK + 12 + i % RECORDS * 12;
        put(record, 4, line->probes[i].period);
        put(record + 4, 4, line->probes[i].length);
        put(record + 8, 4, line->probes[i].start);
    }
    mend(book, blocks * BLOCK);
    return blocks * BLOCK;
}

static struct answer says(uint32_t number, uint32_t index, uint32_t second, uint64_t tick)
{
    struct answer answer = {number, index, second, tick};
    return answer;
}

/* Number 21, 22 or 23 of one block, or 0. */
static uint32_t block_verdict(const uint8_t *book, size_t size, size_t b)
{
    const uint8_t *block = book + b * BLOCK;
    uint32_t plain, by_place;
    size_t n = (size_t)get(book + 6, 2);
    sums(block, &plain, &by_place);
    if (get(block + 504, 4) != plain || get(block + 508, 4) != by_place)
        return 21;
    if (n > PROBES || blocks_for(n) * BLOCK != size || get(block, 2) != b || get(block + 2, 2) != size / BLOCK ||
        get(block + 4, 2) != records_in(n, b) || get(block + 6, 2) != n || get(block + 8, 4) != 0)
        return 22;
    for (size_t k = 12 + 12 * records_in(n, b); k < SUMMED; k++)
        if (block[k] != 0)
            return 23;
    return 0;
}

/* Reads a book: 20 to 23, or 0 and the line. */
static struct answer read_book(const uint8_t *book, size_t size, struct line *line)
{
    if (size == 0 || size % BLOCK != 0 || size > LARGEST)
        return says(20, 0, 0, 0);
    for (size_t b = 0; b < size / BLOCK; b++) {
        uint32_t number = block_verdict(book, size, b);
        if (number != 0)
            return says(number, (uint32_t)b, 0, 0);
    }
    line->n = (size_t)get(book + 6, 2);
    for (size_t i = 0; i < line->n; i++) {
        const uint8_t *record = book + i / RECORDS * BLOCK + 12 + i % RECORDS * 12;
        line->probes[i].period = (uint32_t)get(record, 4);
        line->probes[i].length = (uint32_t)get(record + 4, 4);
        line->probes[i].start = (uint32_t)get(record + 8, 4);
    }
    return says(0, 0, 0, 0);
}

static uint32_t least_period(const struct line *line)
{
    uint32_t least = UINT32_MAX;
    for (size_t i = 0; i < line->n; i++)
        if (line->probes[i].period < least)
            least = line->probes[i].period;
    return least;
}

static uint32_t longest_period(const struct line *line)
{
    uint32_t longest = 0;
    for (size_t i = 0; i < line->n; i++)
        if (line->probes[i].period > longest)
            longest = line->probes[i].period;
    return longest;
}

/* Whether one of the numbers 3, 4, 5 and 9 applies to probe i. */
static int applies(const struct line *line, uint32_t number, size_t i)
{
    const struct probe *probe = &line->probes[i];
    if (number == 3)
        return probe->period == 0 || probe->period > 1048576;
    if (number == 4)
        return probe->length == 0 || probe->length > least_period(line);
    if (number == 9)
        return probe->start >= probe->period;
    for (size_t e = 0; e < i; e++)
        if (probe->period % line->probes[e].period != 0 && line->probes[e].period % probe->period != 0)
            return 1;
    return 0;
}

/* Numbers 3, 4, 5, 6 and 9, each over the whole table. */
static struct answer judge(const struct line *line)
{
    static const uint32_t order[] = {3, 4, 5, 6, 9};
    for (size_t k = 0; k < sizeof order / sizeof *order; k++) {
        if (order[k] == 6) {
            if (line->n > 0 && longest_period(line) / least_period(line) > 4096)
                return says(6, 0, 0, 0);
            continue;
        }
        for (size_t i = 0; i < line->n; i++)
            if (applies(line, order[k], i))
                return says(order[k], (uint32_t)i, 0, 0);
    }
    return says(0, 0, 0, 0);
}

static int holds(const struct probe *probe, uint64_t tick)
{
    return tick >= probe->start && (tick - probe->start) % probe->period < probe->length;
}

static int starts(const struct probe *probe, uint64_t tick)
{
    return tick >= probe->start && (tick - probe->start) % probe->period == 0;
}

/* The first pair that shares a tick: two chained probes that have not met in the longer period after both have begun
 * never do. */
static struct answer walk_check(const struct line *line)
{
    for (size_t i = 0; i < line->n; i++)
        for (size_t j = i + 1; j < line->n; j++) {
            const struct probe *a = &line->probes[i], *b = &line->probes[j];
            uint64_t end =
                (uint64_t)(a->start > b->start ? a->start : b->start) + (a->period > b->period ? a->period : b->period);
            for (uint64_t tick = 0; tick < end; tick++)
                if (holds(a, tick) && holds(b, tick))
                    return says(10, (uint32_t)i, (uint32_t)j, tick);
        }
    return says(0, 0, 0, 0);
}

static struct answer walk_holder(const struct line *line, uint64_t tick)
{
    for (size_t i = 0; i < line->n; i++)
        if (holds(&line->probes[i], tick))
            return says(0, (uint32_t)i, 0, 0);
    return says(0, UINT32_MAX, 0, 0);
}

static struct answer walk_next_start(const struct line *line, uint64_t tick)
{
    if (line->n == 0)
        return says(0, UINT32_MAX, 0, 0);
    for (;; tick++)
        for (size_t i = 0; i < line->n; i++)
            if (starts(&line->probes[i], tick))
                return says(0, (uint32_t)i, 0, tick);
}

/* The answer to a question of a book's bytes. */
static struct answer expected(enum asked asked, const uint8_t *book, size_t size, uint64_t tick)
{
    struct line line;
    struct answer answer = read_book(book, size, &line);
    if (answer.number == 0)
        answer = judge(&line);
    if (answer.number != 0)
        return answer;
    if (asked == CHECK)
        return walk_check(&line);
    if (tick > UINT64_C(1099511627776))
        return says(11, 0, 0, 0);
    return asked == HOLDER ? walk_holder(&line, tick) : walk_next_start(&line, tick);
}

#endif
