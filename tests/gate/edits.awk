# Of a log of rt ci: a row of docs/EDITS.md for each must-fail edit that was refused at a fact, with its witness and the file of that fact.
/^rt: must-fail [a-z_0-9]+\/[A-Za-z_0-9]+\.edit: refused, as it must be: (note: )?[^ :]+:[0-9]+:[0-9]+: / {
    name = $3
    sub(/\.edit:$/, "", name)
    at = $0
    sub(/.*: refused, as it must be: (note: )?(\.\/)?/, "", at)
    sub(/:.*/, "", at)
    crate = name
    sub(/\/.*/, "", crate)
    label = name
    sub(/.*\//, "", label)
    witness = ""
    getline witness < ("crates/" crate "/must-fail/" label ".edit")
    close("crates/" crate "/must-fail/" label ".edit")
    sub(/^Witness: /, "", witness)
    print "| `" crate "/must-fail/" label "` | " witness " | " at " |"
}
