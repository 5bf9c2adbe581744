/*
 * The stack that each call takes. The call runs on memory that was painted before, so the deepest byte that is no
 * longer painted tells how far it went; two paints, since a call may write one of them. The return address of the call
 * counts.
 *
 * Prints a line for each call: its name and the most bytes over all books. Fails where an export takes more than line.h
 * says. With a file's name it only writes the book of a full line there.
 */
#include <stdio.h>

#include "expected.h"
#include "line.h"

void trial_plan_page(const uint8_t *book, size_t book_len, uint8_t *page, size_t page_len, uint32_t *out,
                     size_t out_len);
void trial_check_page(const uint8_t *book, size_t book_len, uint8_t *page, size_t page_len, uint32_t *out,
                      size_t out_len);

enum { STACK = 1 << 18, PAGE_BYTES = 11308 };
enum called { LINE_CHECK, LINE_HOLDER, LINE_NEXT_START, PLAN_PAGE, CHECK_PAGE, CALLED };
static const char *const names[CALLED] = {"line_check", "line_holder", "line_next_start", "pages::plan_page",
                                          "pages::check_page"};
static size_t deepest[CALLED];
static uint8_t stack[STACK] __attribute__((aligned(64)));
static uint32_t out[5];
static uint8_t page[PAGE_BYTES], answer[ANSWER];

/* Calls with six numbers as arguments, on the stack that ends at `top`. */
static uint64_t call_on(uint8_t *top, uintptr_t function, const uint64_t with[6])
{
    uint64_t a = with[0], b = with[1], c = with[2], d = with[3], number;
    register uint64_t e __asm__("r8") = with[4];
    register uint64_t f __asm__("r9") = with[5];
    __asm__ volatile("mov %%rsp, %%rbx\n\tmov %[top], %%rsp\n\tcall *%[function]\n\tmov %%rbx, %%rsp"
                     : "=&a"(number), "+D"(a), "+S"(b), "+d"(c), "+c"(d), "+r"(e), "+r"(f)
                     : [top] "r"(top), [function] "r"(function)
                     : "rbx", "r10", "r11", "memory", "cc", "xmm0", "xmm1", "xmm2", "xmm3", "xmm4", "xmm5", "xmm6",
                       "xmm7", "xmm8", "xmm9", "xmm10", "xmm11", "xmm12", "xmm13", "xmm14", "xmm15");
    return number;
}

static void arguments(enum called called, const uint8_t *book, size_t size, uint64_t tick, uintptr_t *function,
                      uint64_t with[6])
{
    uint64_t asked[] = {(uintptr_t)book, size, tick, (uintptr_t)answer, sizeof answer, 0};
    uint64_t checked[] = {(uintptr_t)book, size, (uintptr_t)answer, sizeof answer, 0, 0};
    uint64_t printed[] = {(uintptr_t)book, size, (uintptr_t)page, sizeof page, (uintptr_t)out, 5};
    uintptr_t functions[] = {(uintptr_t)line_check, (uintptr_t)line_holder, (uintptr_t)line_next_start,
                             (uintptr_t)trial_plan_page, (uintptr_t)trial_check_page};
    *function = functions[called];
    memcpy(with, called == LINE_CHECK ? checked : called < PLAN_PAGE ? asked : printed, 6 * sizeof *with);
}

/* One call; line_check must give this number, and the others of an export what the walk gives, so that the call went
 * its whole way. */
static int measure(enum called called, const uint8_t *book, size_t size, uint64_t tick, uint32_t checked)
{
    int good = 1;
    for (int paint = 0x5A; paint <= 0xA5; paint += 0x4B) {
        uintptr_t function;
        uint64_t with[6];
        arguments(called, book, size, tick, &function, with);
        memset(stack, paint, STACK);
        out[0] = UINT32_MAX;
        uint64_t number = call_on(stack + STACK, function, with);
        size_t clean = 0;
        while (clean < STACK && stack[clean] == paint)
            clean++;
        if (STACK - clean > deepest[called])
            deepest[called] = STACK - clean;
        if (clean == 0)
            good = 0;
        if (called == LINE_CHECK)
            good = good && (uint32_t)number == checked;
        else if (called < PLAN_PAGE)
            good = good && (uint32_t)number == expected((enum asked)called, book, size, tick).number;
        else
            good = good && out[0] == 0 && out[1] > 0;
    }
    if (!good)
        printf("%s, a book of %zu bytes, tick %llu: not the answer that was expected\n", names[called], size,
               (unsigned long long)tick);
    return good;
}

static int measure_all(const uint8_t *book, size_t size, uint32_t checked)
{
    static const uint64_t ticks[] = {0, 1000, UINT64_C(1099511627776), UINT64_MAX};
    int good = 1;
    for (size_t t = 0; t < sizeof ticks / sizeof *ticks; t++)
        for (int called = 0; called < CALLED; called++)
            good &= measure((enum called)called, book, size, ticks[t], checked);
    return good;
}

/* The book of n probes over `different` periods 256, 512, .., with these lengths and starts. */
static size_t line_book(size_t n, uint32_t different, uint32_t length, uint32_t start, uint8_t *book)
{
    static struct line line;
    line.n = n;
    for (uint32_t i = 0; i < n; i++) {
        struct probe probe = {UINT32_C(256) << i % different, length, start == UINT32_MAX ? i : start};
        line.probes[i] = probe;
    }
    return make_book(&line, book);
}

static int measure_line(size_t n, uint32_t different, uint32_t length, uint32_t start, uint32_t checked)
{
    uint8_t book[LARGEST];
    return measure_all(book, line_book(n, different, length, start, book), checked);
}

int main(int words, char **word)
{
    static uint8_t book[LARGEST + BLOCK];
    static const size_t counts[] = {0, 1, 2, 41, 42, 255, 256};
    int good = 1;
    if (words == 2) { /* the book of a full line, for the programs */
        FILE *file = fopen(word[1], "wb");
        size_t size = line_book(PROBES, 13, 1, UINT32_MAX, book);
        return file != NULL && fwrite(book, 1, size, file) == size && fclose(file) == 0 ? 0 : 2;
    }
    for (size_t k = 0; k < sizeof counts / sizeof *counts; k++) {
        size_t n = counts[k];
        uint32_t meet = n < 2 ? 0 : 10;
        good &= measure_line(n, 1, 1, UINT32_MAX, 0);       /* one row, clean */
        good &= measure_line(n, 2, 1, UINT32_MAX, 0);       /* two rows, clean */
        good &= measure_line(n, 13, 1, UINT32_MAX, 0);      /* 4,096 rows, clean */
        good &= measure_line(n, 13, 256, UINT32_MAX, meet); /* no room for a second probe: number 8 */
        good &= measure_line(n, 13, 3, 0, meet);            /* all meet on tick 0 */
        good &= measure_line(n, 3, 257, 0, n == 0 ? 0 : 4);
        good &= measure_line(n, 3, 1, 256, n == 0 ? 0 : 9);
        good &= measure_line(n, 14, 1, 0, n < 14 ? meet : 3);
    }
    for (size_t size = 0; size <= sizeof book; size += 256)
        good &= measure_all(book, size, size == 0 || size % BLOCK != 0 || size > LARGEST ? 20 : 22);
    for (int called = 0; called < CALLED; called++) {
        printf("%s %zu\n", names[called], deepest[called]);
        if (called < PLAN_PAGE && deepest[called] > LINE_STACK_BYTES)
            good = 0;
    }
    return good ? 0 : 1;
}
