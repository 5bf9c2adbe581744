# A line for each name that a .antt file declares: crate/name|public or own|theorem, definition or type|file:line.
BEGIN { deep = 0 }
FNR == 1 { crate = FILENAME; sub(/^crates\//, "", crate); sub(/\/.*/, "", crate) }
{
    line = $0
    sub(/(^|[ \t])--.*/, "", line)
    if (line ~ /^[ \t]*$/) next
    sub(/^[ \t]+/, "", line)
    public = "own"
    kind = "theorem"
    while (match(line, /^(unfoldable|abbrev|pub|axiom)[ \t]+/)) {
        if (line ~ /^pub/) public = "public"
        else kind = "definition"
        line = substr(line, RLENGTH + 1)
    }
    if (line ~ /^(use|mod|module|open|unfolding|package|infix[lr]?|let|where)([ \t]|$)/) next
    if (line ~ /^(record|data)[ \t]/) { kind = "type"; sub(/^(record|data)[ \t]+/, "", line) }
    name = line
    sub(/[ \t].*/, "", name)
    rest = substr(line, length(name) + 1)
    if (name ~ /^[(){}=:,;]/ || name ~ /[(){},;]$/) next
    if (kind == "type" || rest ~ /^[ \t]+(\{[^}]*\}[ \t]+)*:([ \t]|$)/) print crate "/" name "|" public "|" kind "|" FILENAME ":" FNR
}
