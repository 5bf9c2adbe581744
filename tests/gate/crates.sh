#!/bin/sh
# crates.txt lists each folder of crates/ and nothing else; no source stands where nothing proves it.
. "$(dirname "$0")/common"
look() {
    listed >"$room/listed"
    find crates -mindepth 1 -maxdepth 1 -type d | sed 's|^crates/||' | sort >"$room/there"
    comm -13 "$room/listed" "$room/there" | sed 's|.*|crates/&: crates.txt does not list it|'
    comm -23 "$room/listed" "$room/there" | sed 's|.*|crates.txt: & is listed and there is no crates/&|'
    find . \( -path ./target -o -name .git -o -regex '\./crates/[^/]*/out' \) -prune -o \( -name '*.rt' -o -name '*.antt' \) -print | sed 's|^\./||' |
        awk '!/^crates\/[^\/]*\/(src\/.*\.rt|(specs|proofs)\/.*\.antt)$/ { print $0 ": a source outside crates/*/{src,specs,proofs}, so nothing proves it" }'
}
hold "crates: crates.txt and crates/ are the same, and every source is in a crate"
