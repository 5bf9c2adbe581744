#!/bin/sh
# docs/TRUST.md has what the check of each program and each archive says last, its `logic=` line, and which axioms it reaches, by name; no other crate's line counts an axiom.
# They are read where tests/made builds them (target/made.log), and in this run of the gate (target/ci.log), where rt ci prints such lines for the crates that it
# proved in this run alone. Of a crate that is kept from an earlier run of the same files it says just that, and of a kept library this test sees no more.
# No handle is allowed, by which a function could wait or stop in place of answering.
# With another toolchain than the page names, that is said, and the sums of the logic are not compared.
. "$(dirname "$0")/common"
log=target/ci.log
look() {
    [ -f "$log" ] || { echo "there is no $log; .ci/run has not run"; return 0; }
    sh tests/made >"$room/made" 2>&1 || { cat "$room/made"; echo "what docs/TRUST.md tells of cannot be built"; return 0; }
    # crate|line, of a crate's last check; over kept work it says `incremental=trusted` too
    for said in "$log" target/made.log; do
        awk '
            /^== / || /^logic [^=]*: libraries=/ { if (/^== /) { printf "%s", lines; crate = NF == 2 ? $2 : "" } lines = "" }
            crate != "" && (/^logic=/ || /^axioms [a-z_]+: / && !/: none reached /) { sub(/ incremental=trusted$/, ""); lines = lines crate "|" $0 "\n" }
            END { printf "%s", lines }' "$said" >"$room/$(basename "$said")"
    done
    cat "$room/ci.log" "$room/made.log" >"$room/verdicts"
    here=$(rt version)
    sed -n '/^    [a-z_]*  *\(logic=\|axioms \|rattle\)/s/^    \([a-z_]*\)  */\1|/p' docs/TRUST.md >"$room/pinned"
    named=$(sed -n 's/^toolchain|//p' "$room/pinned")
    if [ "$here" != "$named" ]; then
        for list in verdicts pinned; do sed 's/ sum=[0-9a-f]*//' "$room/$list" >"$room/$list.some" && mv "$room/$list.some" "$room/$list"; done
        echo "this run's toolchain is $here, and docs/TRUST.md names $named" >"$room/other"
    fi
    printf 'toolchain|%s\n' "$named" >>"$room/verdicts"
    { echo toolchain; grep -l 'no_mangle' crates/*/src/*.rt; ls crates/*/src/main.rt; sed -n 's,^\([a-z_0-9]*\) staticlib.*,crates/\1/,p' crates.txt; } | sed 's,crates/\([^/]*\)/.*,\1,' >"$room/wanted"
    awk -F'|' -v pinned="$room/pinned" -v wanted="$room/wanted" '
        BEGIN {
            while ((getline line < pinned) > 0) { pin[line] = 1; sub(/\|.*/, "", line); named[line] = 1 }
            while ((getline name < wanted) > 0) want[name] = 1
            for (name in want) if (!(name in named)) print "docs/TRUST.md: the line of " name " is not there"
            for (name in named) if (!(name in want)) print "docs/TRUST.md: " name " is neither a program nor an archive"
        }
        { seen[$0] = 1 }
        $2 ~ /^logic=/ && $2 !~ /^logic=proved / { print $1 ": its check does not end in logic=proved: " $2 }
        $1 in named && !($0 in pin) { print "docs/TRUST.md: " $1 ": this run says: " $2 }
        !($1 in named) && $2 ~ /^axioms|axioms=/ { print $1 ": its check counts axioms: " $2 }
        END { for (line in pin) if (!(line in seen)) print "docs/TRUST.md, and not this run: " line }
    ' "$room/verdicts"
    grep -q '^rt: ok; handles allowed: none;' "$log" || echo "$log: rt ci does not say 'ok; handles allowed: none'"
    # each crate was proved in this run, with a line that the above has read, or is kept
    listed | while IFS= read -r crate; do
        if grep -q "^rt: $crate proved$" "$log"; then
            grep -q "^$crate|logic=" "$room/ci.log" || echo "$log: rt ci proved $crate and has no line 'logic=' of it"
        else
            grep -q "^rt: $crate is kept: an earlier run on this machine proved the same files " "$log" || echo "$log: rt ci says neither that $crate is proved nor that it is kept"
        fi
    done
}
trap 'cat "$room/other" 2>/dev/null; rm -rf "$room"' EXIT
hold "trust: docs/TRUST.md is what this run says, and no other crate assumes anything"
