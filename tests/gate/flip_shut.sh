#!/bin/sh
# Planner and checker know the flip by its laws alone: it is shut. Of the modules that open it, chain's Formula is for bench_sheet and demands, and
# chain's FlipSteps for the proofs of the two functions of flipping that compute it.
. "$(dirname "$0")/common"
look() {
    [ -d crates/chain ] || { echo "there is no crate chain"; return 0; }
    { theory; sources; } >"$room/all"
    while IFS= read -r file; do
        case $file in
        crates/bench_sheet/* | crates/demands/* | crates/chain/specs/Flip.antt | crates/chain/specs/Flip/* | crates/chain/proofs/FlipLaws.antt | crates/chain/proofs/FlipSteps.antt | crates/chain/proofs/FlipFormula.antt | crates/chain/proofs/Lib.antt) continue ;;
        crates/flipping/proofs/Chain/flip/* | crates/flipping/proofs/Chain/unflip/*) continue ;;
        esac
        awk '
            { sub(/(^|[ \t])(--|\/\/).*/, "") }
            FILENAME ~ /^crates\/chain\// || /Rattle\.chain/ { near = 1 }
            /(^|[^A-Za-z0-9_])(Flip)?Formula([^A-Za-z0-9_]|$)/ || /FlipSteps/ { if (near) print FILENAME ":" FNR ": it names a module of chain that opens the flip" }
        ' "$file"
    done <"$room/all"
    grep '^crates/chain/' "$room/all" >"$room/chain"
    for name in flip unflip; do
        shut=0
        while IFS= read -r file; do
            awk -v name="$name" '
                $0 ~ ("^[ \t]*((unfoldable|abbrev)[ \t]+)+(pub[ \t]+)?" name "[ \t]*:") { print FILENAME ":" FNR ": " name " can be unfolded: it must be shut, `pub " name "`" }
                /^[ \t]*unfoldable[ \t]+pub[ \t]+use/ && $0 ~ ("[{, ]" name "[}, ]") { print FILENAME ":" FNR ": " name " is handed on unfoldable" }
            ' "$file"
            ! grep -q "^ *pub $name :" "$file" || shut=1
        done <"$room/chain"
        [ "$shut" -eq 1 ] || echo "crates/chain: there is no shut \`pub $name\`"
    done
}
hold "flip: it is shut, and no crate opens it but bench_sheet and demands"
