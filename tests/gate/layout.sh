#!/bin/sh
# Every source is laid out as `rt fmt` does it, tried on a copy. (`rt ci` refuses a crate that is not.)
. "$(dirname "$0")/common"
look() {
    cp crates.txt "$room"
    { sources; theory; } >"$room/sources"
    xargs cp --parents -t "$room" <"$room/sources"
    listed | xargs -P 4 -I '{}' sh -c 'cd "$1/crates/$2" && rt fmt >"$1/$2.said" 2>&1 || { echo "$2: rt fmt ended with $?"; cat "$1/$2.said"; }' sh "$room" '{}'
    while IFS= read -r file; do cmp -s "$file" "$room/$file" || echo "$file: not laid out, run make fmt"; done <"$room/sources"
}
hold "layout: every source is as rt fmt lays it out"
