# Reads docs/public-calls.txt, then docs/private-calls.txt; `functions`, `names` and `brought` are files of what the sources have.
BEGIN {
    while ((getline < functions) > 0) {
        split($0, f, "|")
        if (f[4] != "top" || f[3] != "public") continue
        call = f[1] "::" f[2]
        there[call] = f[9]; requires[call] = f[5]; ensures[call] = f[6]; said[call] = f[7]; crate[call] = f[1]; home[call] = f[10]
        if (f[10] != f[1]) passed[f[10] "::" f[2]] = 1
    }
    while ((getline < brought) > 0) { split($0, f, "|"); from[f[1] "|" f[2]] = f[3] }
    while ((getline < names) > 0) { split($0, f, "|"); if (f[2] == "public") known[f[1]] = f[4] }
}
FNR == 1 { part++ }
function wrong(why) { print FILENAME ":" FNR ": " why }
# One promise: Name arguments, with no connective outside brackets.
function promise(call,    s, depth, k, c, out, name, of) {
    if (ensures[call] != 1) return "has " ensures[call] " ensures, and needs one"
    s = said[call]
    sub(/^ +/, "", s)
    if (s == "") return "has an ensures with no fact"
    for (k = 1; k <= length(s); k++) {
        c = substr(s, k, 1)
        if (c == "(") depth++
        if (depth == 0) out = out c
        if (c == ")") depth--
    }
    name = s
    sub(/[ (].*/, "", name)
    if (name !~ /^[A-Z]/) return "has an ensures that does not begin with a promise's name"
    if (out ~ /×|⊎|→|↔|≡|≢|≤|<|≥|>|∧|∨|==|λ|¬/) return "has an ensures that says more than one promise"
    if (!((home[call] "|" name) in from)) return "promises " name ", which no `ghost use` of " home[call] " brings"
    of = from[home[call] "|" name]
    if (!((of "/" name) in known)) return "promises " name ", which is no public name of crates/" of "/specs"
    if (known[of "/" name] !~ /\/specs\//) return "promises " name ", which does not stand in specs/"
    return ""
}
part == 1 && /^# later [a-z_0-9]+::[a-z_0-9]+$/ {
    if ($3 in there) wrong($3 " is there (" there[$3] "), and its line still waits: remove '# later'")
    later[$3] = 1
    next
}
/^#/ || /^[ \t]*$/ { next }
part == 1 {
    if ($0 !~ /^[a-z_0-9]+::[a-z_0-9]+$/) { wrong("not of the form crate::name"); next }
    if ($0 in public) { wrong($0 " is listed twice"); next }
    public[$0] = 1
    if (!($0 in there)) { wrong($0 " is not there: no such pub fn at the top of the crate"); next }
    if (requires[$0] != 0) wrong($0 " has a requires (" there[$0] "): a public call takes every input")
    why = promise($0)
    if (why != "") wrong($0 " " why " (" there[$0] ")")
    next
}
part == 2 {
    name = $1
    reason = $0
    sub(/^[^ \t]+[ \t]*/, "", reason)
    if (name ~ /::\*$/) { sub(/::\*$/, "", name); whole[name] = 1; next }
    if (name !~ /^[a-z_0-9]+::[a-z_0-9]+$/) { wrong("not of the form 'crate::name  who calls it'"); next }
    if (reason == "") wrong(name " has no word of who calls it")
    if (name in public) wrong(name " is public, and listed as private")
    if (!(name in there)) wrong(name " is not there: no such pub fn at the top of the crate")
    private[name] = 1
}
# Is a public call the one that stands here?
function passes(call,    other, name) {
    name = call
    sub(/.*::/, "", name)
    for (other in public) if (other != call && home[other] "::" name == call && other ~ ("::" name "$")) return 1
    return 0
}
END {
    for (call in there) {
        if (call in public || call in later || call in private) continue
        if (call in passed) { if (!passes(call)) print there[call] ": " call " is passed on under no name of docs/public-calls.txt"; continue }
        if (crate[call] in whole) continue
        print there[call] ": " call " is neither in docs/public-calls.txt nor in docs/private-calls.txt"
    }
}
