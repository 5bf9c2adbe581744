#!/bin/sh
# The stack that each export, each page call and each program takes, measured; `make stack` prints it. What docs/FIGURES.md and line.h
# say of the calls is near what was measured. The programs' figure turns on the C library's loader, so only an upper bound is held.
. "$(dirname "$0")/../common"
what="masters: no export takes more than LINE_STACK_BYTES, each call is within 256 bytes of what docs/FIGURES.md and line.h say; the programs run in 64 KiB"
most=64 # KiB in which each program must run

made
gcc -std=gnu99 -Wall -Wextra -Werror -O1 -Iinclude tests/masters/stack.c target/staticlib/libmasters.a target/staticlib/libtrial_book.a -Wl,-z,now -o "$room/stack" >"$room/said" 2>&1 ||
    fail "the measurement cannot be built"
"$room/stack" >"$room/said" 2>&1 || fail "a call went wrong, or took more than LINE_STACK_BYTES"
sed 's/$/ bytes/' "$room/said"
# The figure of one build and machine: another processor's memset may take a little more or less.
near=256
while read -r call bytes; do
    shown=$(sed -n "s/^| $call | \([0-9,]*\) |\$/\1/p" docs/FIGURES.md)
    said=$(echo "$shown" | tr -d ,)
    [ -n "$said" ] || fail "docs/FIGURES.md has no row of $call"
    [ "$bytes" -le $((said + near)) ] && [ "$bytes" -ge $((said - near)) ] || fail "$call took $bytes bytes, and docs/FIGURES.md says $shown"
    case $call in line_*) grep -q "at most $shown bytes" include/line.h || fail "line.h does not say 'at most $shown bytes'" ;; esac
done <"$room/said"

# The least stack limit, in steps of 4 KiB, with which a program does what it does with the usual one, 50 times out of 50 (where a stack
# begins is random); an empty C program beside it.
"$room/stack" "$room/full.book" >"$room/said" 2>&1 || fail "there is no book of a full line"
echo 'int main(void) { return 0; }' >"$room/empty.c"
gcc -O1 "$room/empty.c" -o "$room/empty" >"$room/said" 2>&1 || fail "an empty program cannot be built"
runs() { # PROGRAM LIMIT
    many=0
    while [ $many -lt 50 ]; do
        # shellcheck disable=SC2016
        env -i sh -c 'ulimit -s "$1" && exec "$2"' sh "$2" "$1" <"$room/full.book" >"$room/got" 2>/dev/null && cmp -s "$room/got" "$room/wanted" || return 1
        many=$((many + 1))
    done
}
least() { # PROGRAM: the limit in KiB
    limit=4
    "$1" <"$room/full.book" >"$room/wanted" || return 1
    while [ $limit -le 1024 ]; do
        if runs "$1" $limit; then
            echo $limit
            return 0
        fi
        limit=$((limit + 4))
    done
    return 1
} 2>/dev/null
for program in target/bin/plan target/bin/check_list "$room/empty"; do
    limit=$(least "$program") || fail "${program##*/} does not run"
    echo "${program##*/} $limit KiB"
    [ "$limit" -le $most ] || fail "${program##*/} does not run in $most KiB"
done
echo "ok: $what"
