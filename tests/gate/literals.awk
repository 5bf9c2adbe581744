# Of a .rt file, outside comments, strings and the text of contracts: constant|crate::Type::NAME|value for each `const` of an impl,
# and literal|crate|value|file:line for every other number.
BEGIN { FS = "\n" }
FNR == 1 { crate = FILENAME; sub(/^crates\//, "", crate); sub(/\/.*/, "", crate) }
function value(s,    n, k) {
    gsub(/_/, "", s)
    sub(/[ui](8|16|32|64|size)$/, "", s)
    if (s !~ /^0[xob]/) return s
    n = 0
    base = s ~ /^0x/ ? 16 : s ~ /^0o/ ? 8 : 2
    for (k = 3; k <= length(s); k++) n = n * base + index("0123456789abcdef", tolower(substr(s, k, 1))) - 1
    return sprintf("%.0f", n)
}
{
    line = $0
    gsub(/b?"([^"\\]|\\.)*"/, "", line)
    gsub(/b'(\\.|[^'\\])'/, "", line)
    sub(/\/\/.*/, "", line)
    # a contract's text, and a ghost item's, is all between its braces, and may run over lines
    if (!deep && match(line, /^[ \t]*(requires|ensures|ghost [a-z_0-9]+:)([ \t]+[a-z_0-9]+)?[ \t]*\{/)) { line = substr(line, RLENGTH); starts = 1 } else starts = 0
    if (deep || starts) {
        for (at = 1; at <= length(line); at++) {
            c = substr(line, at, 1)
            if (c == "{") deep++
            else if (c == "}" && --deep == 0) break
        }
        line = substr(line, at + 1)
    }
    if (line ~ /^impl[ <]/) { type = line; sub(/^impl(<[^>]*>)? +/, "", type); sub(/^.* for /, "", type); sub(/[^A-Za-z0-9_].*/, "", type) }
    if (line ~ /^}/) type = ""
    if (type != "" && match(line, /^ +(pub )?const [A-Z0-9_]+: [a-z0-9]+ = [0-9][0-9a-zA-Z_]*;/)) {
        name = line
        sub(/^ +(pub )?const /, "", name)
        sub(/:.*/, "", name)
        sub(/.* = /, "", line)
        sub(/;.*/, "", line)
        print "constant|" crate "::" type "::" name "|" value(line)
        next
    }
    while (match(line, /[A-Za-z0-9_]+/)) {
        word = substr(line, RSTART, RLENGTH)
        line = substr(line, RSTART + RLENGTH)
        if (word ~ /^[0-9]/) print "literal|" crate "|" value(word) "|" FILENAME ":" FNR
    }
}
