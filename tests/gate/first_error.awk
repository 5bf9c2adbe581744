# Reads an edit, then what rt ci said of it: one line, with the beginning of the first error that is more than a name which the edit took away.
# Prints a line where that is not a fact that fails. `edit` is the edit's path, `crate` the folder of its crate.
function wrong(why) { print edit ": " why ": " said; bad = 1; exit }
# Makes the edit's pairs in the text of their file, and keeps the rows of specs/ that they change.
function make(old, new,    path, row, line, at) {
    path = crate "/" file
    if (!(path in rows)) { while ((getline line < path) > 0) text[path, ++rows[path]] = line; close(path) }
    for (row = 1; row <= rows[path]; row++) {
        at = index(text[path, row], old)
        if (!at) continue
        text[path, row] = substr(text[path, row], 1, at - 1) new substr(text[path, row], at + length(old))
        if (file ~ /^(specs|proofs)\//) changed[file ":" row] = 1
    }
}
FNR == 1 { part++ }
part == 1 && /^file: / { file = substr($0, 7) }
part == 1 && /^old: / { old = substr($0, 6) }
part == 1 && /^new:/ { new = substr($0, 5); sub(/^ /, "", new); make(old, new) }
part == 2 {
    said = $0
    if (!sub(/^rt: must-fail [^ ]*: refused, as it must be/, "", said)) wrong("it was not refused")
    if (said ~ /^ \(/) wrong("refused, but not at a fact")
    if (!sub(/^: /, "", said)) wrong("refused, and nothing is said of where")
    if (said ~ / is not admitted: has-holes/) wrong("refused, but there is a hole")
    # a function with no proof file: the goal that rattle could not prove by itself
    if (said ~ /^note: [^ ]*:[0-9]+:[0-9]+: it is not proved that /) { found = 1; exit }
    if (!match(said, /: error(\[[a-z-]*\])?: /)) wrong("refused, and what is said is neither an error nor a goal that is not proved")
    place = substr(said, 1, RSTART - 1)
    what = substr(said, RSTART + 2)
    sub(/^\.\//, "", place)
    sub(/:[0-9]+$/, "", place)
    if (what ~ /has no `|has no field/ && place !~ /^specs\//) wrong("refused, but only because the proof file no longer fits")
    if (what ~ /can(not)? be named from here|is not in scope|^error\[unknown-name\]|cannot find /) wrong("refused, but only because a name is missing")
    if (what ~ /^error\[/) wrong("refused, but the compiler did not read it")
    if (what ~ /expected .*, found |unexpected token|is still open|is never closed|at or left of the enclosing block|is a reserved word|a declaration is a signature or a definition/) wrong("refused, but the text does not parse")
    if (what ~ /has no clause for|no clause covers|write the clause|this clause follows|declared but not defined|is not a structural call|was not admitted/) wrong("refused, but the edited definition is not well formed")
    # an error of type on the edited line of a definition itself: the edit is no definition
    if ((place in changed) && what ~ /expected type|has no field|too (many|few)/) wrong("refused, but the edited line itself is not well formed")
    found = 1
    exit
}
END { if (!bad && !found) print edit ": rt ci said nothing of it" }
