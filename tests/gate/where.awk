# A row of docs/NAMES.md for each definition, theorem and function that docs/PROMISES.md names: the file in which it stands.
BEGIN {
    while ((getline < functions) > 0) { split($0, f, "|"); at = f[9]; sub(/:[0-9]+$/, "", at); file[f[1] "::" f[2]] = at }
    while ((getline < names) > 0) { split($0, f, "|"); at = f[4]; sub(/:[0-9]+$/, "", at); if (!(f[1] in file)) file[f[1]] = at }
}
/^\|/ {
    n = split($0, parts, "`")
    for (k = 2; k <= n; k += 2) if ((parts[k] in file) && !(parts[k] in told)) { told[parts[k]] = 1; print "| `" parts[k] "` | " file[parts[k]] " |" }
}
