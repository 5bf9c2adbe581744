#!/bin/sh
# docs/NAMES.md says in which file each name of docs/PROMISES.md stands. `make names` writes the page, by this script with the word `page`.
. "$(dirname "$0")/common"
rows() {
    functions >"$room/functions"
    names >"$room/names"
    awk -v functions="$room/functions" -v names="$room/names" -f "$gate"/where.awk docs/PROMISES.md | LC_ALL=C sort
}
if [ "${1:-}" = page ]; then
    printf '# Where each name stands\n\nEach definition, theorem and function that docs/PROMISES.md names, and its file. `make names` writes this page.\n\n| name | file |\n|---|---|\n'
    rows
    exit 0
fi
look() {
    rows >"$room/now"
    grep '^| `' docs/NAMES.md >"$room/page" || :
    diff "$room/page" "$room/now" | sed -n 's/^< /docs\/NAMES.md, and not so: /p; s/^> /not in docs\/NAMES.md: /p'
}
hold "names: docs/NAMES.md says where each promise stands"
