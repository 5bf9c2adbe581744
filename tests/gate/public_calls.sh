#!/bin/sh
# docs/public-calls.txt lists the public calls: each is there, or passed on from the crate where it stands, has no `requires`, and its one `ensures` is one promise of specs/ with its
# arguments.
# Every other `pub fn` at the top of a crate stands in docs/private-calls.txt with who calls it.
. "$(dirname "$0")/common"
look() {
    functions >"$room/functions"
    names >"$room/names"
    brought >"$room/brought"
    awk -v functions="$room/functions" -v names="$room/names" -v brought="$room/brought" -f "$gate"/public_calls.awk docs/public-calls.txt docs/private-calls.txt
}
hold "public calls: docs/public-calls.txt and docs/private-calls.txt are what the sources have"
