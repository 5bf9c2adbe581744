#!/bin/sh
# The program for a master's firmware that README.md prints is built by the commands beside it, and prints what stands there.
. "$(dirname "$0")/../common"
what="masters: the program in README.md runs as printed"

# The one block of a language in the section: fails unless it is there once.
block() { # LANGUAGE
    awk -v fence="\`\`\`$1" '
        /^## / { here = $0 == "## For the firmware programmer" }
        here && inside && /^```$/ { inside = 0; next }
        inside { print }
        here && $0 == fence { inside = 1; found++ }
        END { exit found == 1 && !inside ? 0 : 1 }' README.md
}
block c >"$room/next.c" || fail "README.md has no program"
block sh >"$room/commands" || fail "README.md has no commands"
block text >"$room/wanted" || fail "README.md has no output"
[ -s "$room/next.c" ] && [ -s "$room/commands" ] && [ -s "$room/wanted" ] || fail "a block of README.md is empty"

mkdir -p bin && cp "$room/next.c" bin/next.c || fail "bin/next.c cannot be written"
rm -f bin/next
# all but the last command may say what they like; the last one's output is compared
sed '$d' "$room/commands" >"$room/first"
sed -n '$p' "$room/commands" >"$room/last"
sh tests/alone sh -e "$room/first" >"$room/said" 2>&1 || fail "a command fails"
grep -i warning "$room/said" && fail "a command warns"
sh -e "$room/last" >"$room/got" 2>"$room/said" || fail "the last command fails"
cmp "$room/got" "$room/wanted" >"$room/said" 2>&1 || { cat "$room/got"; fail "it prints something else"; }
echo "ok: $what"
