#!/bin/sh
# What README.md and the pages of docs/ name in backquotes, as `crate/name` or `crate::name`, exists. (docs/landings tells of names as they then were; docs/PROMISES.md has a test of its own.)
. "$(dirname "$0")/common"
look() {
    functions >"$room/functions"
    names >"$room/names"
    listed >"$room/crates"
    sources | while IFS= read -r file; do sed -n "s,^\(pub \)*\(struct\|enum\) \([A-Za-z0-9_]*\).*,$(echo "$file" | cut -d/ -f2)::\3,p" "$file"; done >"$room/types"
    theory | sed 's,^crates/,,; s,\.antt$,,' >"$room/modules"
    find crates docs tests reference examples include -type d -name out -prune -o -type f -print 2>/dev/null >"$room/files" || :
    for page in README.md docs/*.md; do
        [ "$page" != docs/PROMISES.md ] || continue
        awk -v functions="$room/functions" -v names="$room/names" -v crates="$room/crates" -v types="$room/types" -v modules="$room/modules" -v files="$room/files" '
            BEGIN {
                while ((getline < functions) > 0) { split($0, f, "|"); there[f[1] "::" f[2]] = 1 }
                while ((getline < names) > 0) { split($0, f, "|"); there[f[1]] = 1 }
                while ((getline < types) > 0) there[$0] = 1
                while ((getline < modules) > 0) there[$0] = 1
                while ((getline < crates) > 0) crate[$0] = 1
                while ((getline < files) > 0) if ($0 ~ /\.edit$/) { edit = $0; sub(/^crates\//, "", edit); sub(/\.edit$/, "", edit); there[edit] = 1 }
            }
            {
                n = split($0, parts, "`")
                for (k = 2; k <= n; k += 2) {
                    thing = parts[k]
                    owner = thing
                    sub(/(::|\/).*/, "", owner)
                    if (!(owner in crate) || thing !~ /^[a-z_0-9]+(::|\/)[^ ]+$/) continue
                    if (!(thing in there)) print FILENAME ":" FNR ": there is no " thing
                }
            }' "$page"
    done
}
hold "docs: what the pages name is there"
