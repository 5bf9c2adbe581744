#!/bin/sh
# Each must-fail edit has a witness, and was refused at a fact: not because its text is not well formed or the proof file no longer fits.
# rt ci says one line of each edit, with the beginning of the prover's first error; an error of a proof file that misses a name which the edit took away is passed
# over there, so of an edit with such an error and one more, this test sees the second.
# Each public call F has two edits or more that bear its name, F_*.edit, in the crate where it stands or in one that this crate reaches (its promise, its steps); one of them is of src/.
. "$(dirname "$0")/common"
log=target/ci.log

edits() {
    find crates/*/must-fail -name '*.edit' | sort >"$room/edits"
    [ -f "$log" ] || echo "there is no $log; .ci/run has not run"
    while IFS= read -r edit; do
        crate=${edit#crates/}
        crate=${crate%%/*}
        label=$(basename "$edit" .edit)
        head -n 1 "$edit" | grep -q '^Witness: .' || echo "$edit:1: the first line is not 'Witness: input, right answer, wrong answer'"
        [ -f "$log" ] || continue
        [ -z "$(find "$edit" -newer "$log")" ] || { echo "$edit: it is newer than $log; try it again by .ci/run"; continue; }
        grep -F "rt: must-fail $crate/$label.edit: " "$log" >"$room/said" || { echo "$edit: $log says nothing of it"; continue; }
        awk -v edit="$edit" -v crate="crates/$crate" -f "$gate"/first_error.awk "$edit" "$room/said"
    done <"$room/edits"
}

# An edit bears the name of the longest public call that its label begins with.
calls() {
    functions >"$room/functions"
    sed -n 's/^\([a-z_0-9]*\)::\([a-z_0-9]*\)$/\1 \2/p' docs/public-calls.txt >"$room/calls"
    while IFS= read -r edit; do
        grep -q '^file: src/' "$edit" && of=src || of=specs
        echo "$(echo "$edit" | cut -d/ -f2) $(basename "$edit" .edit) $of"
    done <"$room/edits" | awk -v calls="$room/calls" -v functions="$room/functions" '
        function reach(crate,    n, below, k) {
            if (crate in reached) return
            reached[crate] = 1
            n = split(cites[crate], below, " ")
            for (k = 1; k <= n; k++) reach(below[k])
        }
        BEGIN {
            while ((getline line < "crates.txt") > 0) { sub(/#.*/, "", line); at = index(line, ":"); if (!at) continue; name = substr(line, 1, at - 1); sub(/[ \t].*/, "", name); cites[name] = substr(line, at + 1) }
            while ((getline line < functions) > 0) { split(line, f, "|"); home[f[1] " " f[2]] = f[10] }
            while ((getline line < calls) > 0) {
                split(line, f, " ")
                public[f[2]] = 1
                split("", reached)
                reach(home[line])
                for (crate in reached) may[f[2] " " crate] = 1
            }
        }
        {
            best = ""
            for (call in public) if (index($2, call "_") == 1 && length(call) > length(best)) best = call
            if (best == "" || !((best " " $1) in may)) next
            count[best]++
            if ($3 == "src") code[best]++
        }
        END {
            for (call in public) {
                if (count[call] < 2) print call ": it has " count[call] + 0 " must-fail edits, " call "_*.edit, and needs two"
                else if (!code[call]) print call ": none of its must-fail edits is of src/"
            }
        }'
}

look() { edits; calls; }
hold "must-fail: each edit has its witness and fails at a fact, and each public call has two"
