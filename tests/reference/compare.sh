#!/bin/sh
# Every public call, through the archives of trial_c and trial_book, the exports of masters and the two programs as processes, against the independent
# program in reference/, on random and boundary inputs.
. "$(dirname "$0")/../common"
what="reference: every public call, export and program answers and writes as the independent program does"

built compare
tests/reference/compare/target/checked/compare || fail "see above"
echo "ok: $what"
