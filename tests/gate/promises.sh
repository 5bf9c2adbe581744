#!/bin/sh
# docs/PROMISES.md is held against the crates; the page itself says how a row is written and what must have one.
. "$(dirname "$0")/common"
look() {
    functions >"$room/functions"
    names >"$room/names"
    find crates docs tests reference examples include -type d -name out -prune -o -type f -print 2>/dev/null >"$room/files" || :
    awk -v functions="$room/functions" -v names="$room/names" -v files="$room/files" -f "$gate"/promises.awk docs/public-calls.txt docs/PROMISES.md
}
hold "promises: docs/PROMISES.md and the crates agree"
