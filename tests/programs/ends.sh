#!/bin/sh
# A failed read ends the input, and after a failed write nothing more is written: the programs with no input, an input that cannot be read, and an output that takes nothing.
. "$(dirname "$0")/../common"
what="programs: with no input, an input that cannot be read, and an output that takes nothing"

made
printf '20 0\n' >"$room/plan"
printf '20 0 0 0\n' >"$room/check_list"
held=0
# the page of no byte, whatever the reason that there is none
for program in plan check_list; do
    "target/bin/$program" </dev/null >"$room/empty" 2>"$room/error"
    "target/bin/$program" <&- >"$room/shut" 2>>"$room/error"
    "target/bin/$program" <crates >"$room/folder" 2>>"$room/error"
    for page in empty shut folder; do
        cmp -s "$room/$page" "$room/$program" || fail "$program, $page: $(cat "$room/$page")"
        held=$((held + 1))
    done
    [ ! -s "$room/error" ] || fail "$program: $(cat "$room/error")"
    # a write that fails: it ends, and says nothing elsewhere
    [ -c /dev/full ] || fail "there is no /dev/full"
    "target/bin/$program" <crates/plan/stdin >/dev/full 2>"$room/error" || :
    [ ! -s "$room/error" ] || fail "$program, a full output: $(cat "$room/error")"
    "target/bin/$program" <crates/plan/stdin >&- 2>"$room/error" || :
    [ ! -s "$room/error" ] || fail "$program, no output: $(cat "$room/error")"
    held=$((held + 2))
done
[ "$held" -eq 10 ] || fail "$held of 10 were held"
echo "ok: $what"
