#!/bin/sh
# include/line.h as C and as C++, and the three exports called from C with exactly sized bytes.
. "$(dirname "$0")/../common"
strict="-Wall -Wextra -pedantic -Werror -Iinclude"
what="masters: include/line.h stands alone as C99 and as C++"

made

# twice in one file, and with every name of it used
cat >"$room/uses.c" <<'END'
#include "line.h"
#include "line.h"
int main(void)
{
    uint8_t answer[LINE_ANSWER_BYTES];
    uint32_t number = line_check(0, 0, answer, sizeof answer) + line_holder(0, 0, LINE_LAST_TICK, answer, sizeof answer)
        + line_next_start(0, 0, 0, answer, sizeof answer);
    return number == 3 * LINE_BOOK_SIZE && answer[LINE_AT_NUMBER] == LINE_BOOK_SIZE && answer[LINE_AT_INDEX] + answer[LINE_AT_SECOND] + answer[LINE_AT_TICK] == 0
        && LINE_NONE == 0xFFFFFFFFu ? 0 : 1;
}
END
cp "$room/uses.c" "$room/uses.cc"
# shellcheck disable=SC2086
for std in c99 c11; do
    gcc -std=$std $strict "$room/uses.c" target/staticlib/libmasters.a -o "$room/uses" >"$room/said" 2>&1 || fail "as $std"
    "$room/uses" >"$room/said" 2>&1 || fail "as $std, what it calls answers otherwise"
done
# shellcheck disable=SC2086
for std in c++98 c++11 c++17; do
    g++ -std=$std $strict "$room/uses.cc" target/staticlib/libmasters.a -o "$room/uses" >"$room/said" 2>&1 || fail "as $std"
    "$room/uses" >"$room/said" 2>&1 || fail "as $std, what it calls answers otherwise"
done
echo "ok: $what"

what="masters: the exports called from C give every number of their list, the right 20 bytes, and touch no other"
# shellcheck disable=SC2086
gcc -std=c99 $strict -g -O2 -fsanitize=address,undefined -fno-sanitize-recover=all tests/masters/exports.c target/staticlib/libmasters.a -o "$room/exports" >"$room/said" 2>&1 ||
    fail "the test cannot be built"
"$room/exports" >"$room/said" 2>&1 || fail "see above"
cat "$room/said"
echo "ok: $what"
