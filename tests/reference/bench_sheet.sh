#!/bin/sh
# Document 01's bench sheet through the compiled calls of the archive of trial_c, against the lines in bench_sheet.txt.
. "$(dirname "$0")/../common"
what="bench sheet: the compiled calls answer and write each case as document 01 has it"

built bench_sheet
tests/reference/compare/target/checked/bench_sheet >"$room/wrote" || fail "the program did not run to its end"
cmp "$room/wrote" tests/reference/bench_sheet.txt >"$room/said" 2>&1 || fail "the lines differ"
echo "ok: $what ($(wc -l <"$room/wrote") lines)"
