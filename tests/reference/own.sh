#!/bin/sh
# The reference's own tests: its quick ways against brute force over ticks, the bench sheet, books damaged byte by byte, the examples.
. "$(dirname "$0")/../common"
what="reference: its own tests pass"

cargo test --offline --locked --quiet --manifest-path reference/Cargo.toml --jobs 2 >"$room/said" 2>&1 || fail "see above"
ran=$(awk '/^test result: ok\./ { n += $4 } END { print n + 0 }' "$room/said")
[ "$ran" -gt 0 ] || fail "no test ran"
echo "ok: $what ($ran tests)"
