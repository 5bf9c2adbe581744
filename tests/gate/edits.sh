#!/bin/sh
# docs/EDITS.md has a row for each must-fail edit: its witness, and where this run of the gate says that it is refused. `make edits` writes the page.
. "$(dirname "$0")/common"
log=target/ci.log
look() {
    [ -f "$log" ] || { echo "there is no $log; .ci/run has not run"; return 0; }
    awk -f "$gate"/edits.awk "$log" | sort >"$room/run"
    grep '^| `' docs/EDITS.md | sort >"$room/page"
    diff "$room/page" "$room/run" | sed -n 's/^< /docs\/EDITS.md, and not this run: /p; s/^> /this run, and not docs\/EDITS.md: /p'
    find crates/*/must-fail -name '*.edit' | wc -l | awk -v rows="$(wc -l <"$room/run")" '$1 != rows { print "there are " $1 " edits, and this run refused " rows }'
}
hold "edits: docs/EDITS.md has each must-fail edit with its witness and where it is refused"
