# A line for each function of a .rt file, read after `rt fmt` laid it out:
# crate|name|public or own|method or top|requires|ensures|text of the ensures|names that it calls|file:line. A method's name is Type::name, of a trait's impl too.
BEGIN { FS = "\n" }
{
    line = $0
    gsub(/b?"([^"\\]|\\.)*"/, "\"\"", line)
    sub(/\/\/.*/, "", line)
    text = text line "\n"
}
# The place after the bracket that closes the one at `at`.
function closing(at, from, to,    depth, c) {
    depth = 0
    for (; at <= length(text); at++) {
        c = substr(text, at, 1)
        if (c == from) depth++
        else if (c == to && --depth == 0) return at + 1
    }
    return at
}
function blanks(at) { while (substr(text, at, 1) ~ /[ \t\n]/) at++; return at }
function row(at,    part) { part = substr(text, 1, at); return gsub(/\n/, "", part) + 1 }
function plain(s) { gsub(/[ \t\n]+/, " ", s); gsub(/\|/, "/", s); return s }
function called(s,    out, name) {
    out = " "
    gsub(/::<[^<>]*>/, "", s)
    while (match(s, /[A-Za-z_][A-Za-z0-9_]*(::[A-Za-z_][A-Za-z0-9_]*)*\(/)) {
        name = substr(s, RSTART, RLENGTH - 1)
        s = substr(s, RSTART + RLENGTH)
        if (index(out, " " name " ") == 0) out = out name " "
    }
    return out
}
function function_at(at, public,    name, end, word, req, ens, said, from, seat) {
    seat = at
    match(substr(text, at), /fn[ ]+[A-Za-z_][A-Za-z0-9_]*/)
    name = substr(text, at + RSTART + 2, RLENGTH - 3)
    sub(/^ +/, "", name)
    end = at + RSTART + RLENGTH - 1
    while (substr(text, end, 1) != "(") end++
    end = closing(end, "(", ")")
    req = ens = 0
    said = ""
    for (;;) {
        while (end <= length(text) && substr(text, end, 12) !~ /^(requires|ensures)[ \n{]/ && substr(text, end, 1) !~ /[{;]/) {
            if (substr(text, end, 1) == "[") end = closing(end, "[", "]")
            else end++
        }
        word = substr(text, end, 8)
        if (word !~ /^(requires|ensures.)/) break
        from = end
        while (substr(text, end, 1) != "{") end++
        from = end
        end = closing(end, "{", "}")
        if (word == "requires") req++
        else { ens++; said = said substr(text, from + 1, end - from - 2) }
    }
    from = end
    if (substr(text, end, 1) == "{") end = closing(end, "{", "}")
    print crate "|" (type == "" ? name : type "::" name) "|" public "|" (type == "" ? "top" : "method") "|" req "|" ens "|" plain(said) "|" called(substr(text, from, end - from)) "|" FILENAME ":" row(seat)
    return end
}
END {
    crate = FILENAME
    sub(/^crates\//, "", crate)
    sub(/\/.*/, "", crate)
    type = ""
    limit = 0
    at = 1
    while (at <= length(text)) {
        if (type != "" && at >= limit) type = ""
        rest = substr(text, at, 400)
        if (at == 1 || substr(text, at - 1, 1) ~ /[ \t\n{};]/) {
            if (rest ~ /^impl[ \n<]/) {
                type = plain(substr(rest, 5, index(rest, "{") - 5))
                sub(/^<[^>]*>/, "", type)
                sub(/^.* for /, "", type)
                sub(/^ */, "", type)
                sub(/[^A-Za-z0-9_].*/, "", type)
                while (substr(text, at, 1) != "{") at++
                limit = closing(at, "{", "}")
                at++
                continue
            }
            if (rest ~ /^pub[ \n]+(extern[ \n]+""[ \n]+)?fn[ \n]/) { at = function_at(at, "public"); continue }
            if (rest ~ /^(extern[ \n]+""[ \n]+)?fn[ \n]/) { at = function_at(at, "own"); continue }
        }
        at++
    }
}
