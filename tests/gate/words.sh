#!/bin/sh
# By the text alone, beside what rt says: no hole, no axiom, no C function of our own; and tracked files speak of the project alone.
# A bracket stands in each pattern so that this file does not find itself.
. "$(dirname "$0")/common"
look() {
    theory >"$room/theory"
    while IFS= read -r file; do
        awk '
            { sub(/(^|[ \t])--.*/, "") }
            /(^|[ \t(,={])\?([ \t),;}]|$)/ { print FILENAME ":" FNR ": a hole" }
            /(^|[ \t])(axiom|postulate)([ \t]|$)/ { print FILENAME ":" FNR ": an axiom" }
        ' "$file"
    done <"$room/theory"
    sources >"$room/sources"
    while IFS= read -r file; do
        awk '
            { sub(/\/\/.*/, "") }
            /(^|[ \t])extern[ \t]+"C"[ \t]*(\{|$)/ { print FILENAME ":" FNR ": a block of C functions, which nothing proves" }
            /(^|[ \t])(axiom|postulate)([ \t]|$)/ { print FILENAME ":" FNR ": an axiom" }
        ' "$file"
    done <"$room/sources"
    found() { # WHAT PATTERN
        git grep -nIiE "$2" -- . ':!*.lock' >"$room/found" || [ $? -eq 1 ]
        awk -v what="$1" '{ match($0, /^[^:]*:[0-9]*:/); print substr($0, 1, RLENGTH) " " what ": " substr($0, RLENGTH + 1, 160) }' "$room/found"
    }
    found 'work left open' '(^|[^a-z])(TO[D]O|FIX[M]E)([^a-z]|$)'
    found 'a path of one machine' '(^|[^a-z0-9_.])/(wor[k]|tm[p]|roo[t]|op[t])(/|[^a-z0-9_/]|$)'
    found 'a word that is not of the project' '(^|[^a-z])(sessio[n]|agen[t]|helpe[r])s?([^a-z]|$)'
    found 'a number of a tracker' '(^|[^a-z])issue[ ]*#?[0-9]|(^|[ (])#[0-9]+([^a-z0-9]|$)'
}
hold "words: no hole, axiom or C block, and no word that is not of the project"
