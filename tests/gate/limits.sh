#!/bin/sh
# A limit is an associated constant, and stands nowhere else in src/ as a literal. tests/gate/limits.txt lists them.
. "$(dirname "$0")/common"
look() {
    sources >"$room/sources"
    while IFS= read -r file; do awk -f "$gate"/literals.awk "$file"; done <"$room/sources" >"$room/literals"
    awk -v literals="$room/literals" '
        BEGIN {
            while ((getline < literals) > 0) {
                split($0, f, "|")
                if (f[1] == "constant") { constant[f[2]] = f[3]; continue }
                n++; crate[n] = f[2]; number[n] = f[3]; place[n] = f[4]
            }
        }
        { sub(/#.*/, "") }
        /^[ \t]*$/ { next }
        NF != 3 || $1 !~ /^[0-9]+$/ { print FILENAME ":" FNR ": not of the form: number, crate or *, constant or later"; next }
        $3 != "later" && !($3 in constant) { print FILENAME ":" FNR ": there is no associated constant " $3 }
        $3 != "later" && ($3 in constant) && constant[$3] != $1 { print FILENAME ":" FNR ": " $3 " is " constant[$3] " and not " $1 }
        {
            for (k = 1; k <= n; k++) if (number[k] == $1 && ($2 == "*" || $2 == crate[k])) print place[k] ": the limit " $1 " as a literal" ($3 == "later" ? ": make it an associated constant" : ": write " $3)
        }' "$gate"/limits.txt
}
hold "limits: each is an associated constant and stands nowhere else"
