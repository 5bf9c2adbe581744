# Reads docs/public-calls.txt, then docs/PROMISES.md; `functions`, `names` and `files` are files of what there is.
BEGIN {
    while ((getline < functions) > 0) {
        split($0, f, "|")
        call = f[1] "::" f[2]
        function_at[call] = f[9]
        calls[call] = f[8]
        if (f[5] > 0) requires[call] = f[9]
        if (f[3] == "public" && f[4] == "top") top[call] = f[9]
    }
    while ((getline < names) > 0) {
        split($0, f, "|")
        name_at[f[1]] = f[4]
        if (f[2] == "public" && f[3] == "theorem" && f[4] ~ /^crates\/[^\/]*\/(specs|proofs)\/Promises\.antt:/) theorem[f[1]] = f[4]
    }
    while ((getline < files) > 0) { file = $0; there[file] = 1; while (sub(/\/[^\/]*$/, "", file)) there[file] = 1 }
}
FNR == 1 { part++ }
function wrong(why) { print FILENAME ":" FNR ": " why }
# Is the named thing there? An empty text, or what is wrong with it.
function missing(thing,    path) {
    if (thing ~ /^(tests|reference|examples|include|docs)\//) { path = thing; sub(/\/$/, "", path); return (path in there) ? "" : "there is no file " thing }
    if (thing ~ /^[a-z_0-9]+\/must-fail\/[A-Za-z_0-9]+$/) return (("crates/" thing ".edit") in there) ? "" : "there is no must-fail edit crates/" thing ".edit"
    if (thing ~ /^[a-z_0-9]+::[A-Za-z_0-9]+(::[A-Za-z_0-9]+)?$/) return (thing in function_at) ? "" : "there is no function " thing
    if (thing ~ /^[a-z_0-9]+\/[^\/ ]+$/) return (thing in name_at) ? "" : "there is no definition or theorem " thing
    return "`" thing "` is of none of the forms that this page lists"
}
# Puts the things named in a cell into `named`, and says which are not there.
function read_cell(cell, strict,    n, parts, k, why) {
    n = split(cell, parts, "`")
    if (n % 2 == 0) wrong("a backquote is not closed")
    count = 0
    for (k = 2; k <= n; k += 2) {
        if (!strict && parts[k] !~ /::|\//) continue
        why = missing(parts[k])
        if (why != "") wrong(why)
        named[++count] = parts[k]
    }
}
part == 1 && /^[a-z_0-9]+::[a-z_0-9]+$/ { public[$0] = 1 }
part == 1 { next }
/^#/ { section = $0; sub(/^#+ */, "", section); body = 0; next }
!/^\|/ { body = 0; next }
/^\|[-| :]*\|$/ { body = 1; next }
!body { next }
{
    line = $0
    cells = split(line, cell, "|") - 2
    if (section == "Sentences with no row") { if (cells != 2) wrong("a row of this section has two cells"); next }
    if (section == "Requires") {
        if (cells != 3) { wrong("a row of this section has three cells"); next }
        read_cell(cell[2], 1)
        if (count != 1 || named[1] !~ /::/) { wrong("the first cell names one function, `crate::name`"); next }
        asked = named[1]
        met[asked] = 1
        if (asked in function_at && !(asked in requires)) wrong(asked " has no requires")
        short = asked
        sub(/.*::/, "", short)
        read_cell(cell[3], 1)
        if (cell[3] ~ /^ none yet $/) {
            path = asked
            sub(/^[a-z_0-9]*::/, "", path)
            for (call in function_at) if (calls[call] ~ ("[ :]" path " ")) wrong(call " calls " asked ", and the row says none yet")
            next
        }
        if (count == 0) wrong("no proved caller of " asked " is named")
        for (k = 1; k <= count; k++) if (named[k] in function_at && calls[named[k]] !~ ("[ :]" short " ")) wrong(named[k] " does not call " asked)
        next
    }
    if (cells != 5) { wrong("a row of this section has five cells"); next }
    for (c = 2; c <= 6; c++) {
        read_cell(cell[c], c > 2)
        for (k = 1; k <= count; k++) {
            row[named[k]] = 1
            if (c == 4 && named[k] ~ /::/) proved[named[k]] = 1
            if (c == 5 && named[k] !~ /\/must-fail\//) wrong(named[k] " is no must-fail edit")
        }
    }
}
END {
    page = "docs/PROMISES.md"
    for (call in public) if ((call in top) && !(call in proved)) print page ": the public call " call " (" top[call] ") has no row"
    for (name in theorem) if (!(name in row)) print page ": the theorem " name " (" theorem[name] ") has no row"
    for (call in requires) if (!(call in met)) print page ": " call " has a requires (" requires[call] ") and no row in the section Requires"
}
