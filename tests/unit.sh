#!/bin/sh
# Runs the tests of the crates whose names end with _tests or _bench, without a proof: `rt try` compiles them with checks of memory
# and of arithmetic. Prints a line for each crate and all that was printed of one where a test failed or did not end, and last
# 'N passed, M failed'. With `long` the tests that read many inputs read all of theirs, and not the first few thousand.
#
# usage: sh tests/unit.sh [long]       JOBS=N: so many crates at a time, else as there are processors
set -u
cd "$(dirname "$0")/.." || exit 1
. scripts/crates.sh
room=$(mktemp -d) || exit 1
trap 'rm -rf "$room"' EXIT
trap 'exit 1' HUP INT TERM

# The time that a test has is for two processors which proofs and edits keep busy.
words='--seconds 1200'
if [ "${1:-}" = long ]; then
    # A file `long` where they run is what such tests look for. Half a million nested containers are printed by calls that take
    # several times the stack where they are compiled with checks.
    ulimit -s 65536 || exit 1
    : > "$room/long"
    words="--seconds 3600 --data long=$room/long"
fi
tests=$(for crate in $(all_crates); do is_proved "$crate" || echo "$crate"; done)
# shellcheck disable=SC2016,SC2086
printf '%s\n' $tests | ROOM=$room WORDS=$words xargs -P "${JOBS:-$(nproc)}" -I CRATE \
    sh -c 'cd crates/CRATE && rt try --test $WORDS > "$ROOM/CRATE" 2>&1; echo "$?" > "$ROOM/CRATE.status"'

passed=0 failed=0
for crate in $tests; do
    # A test that does not end is not among those that failed, and one that is ignored runs nowhere.
    said=$(sed -n 's/^test result: .* \([0-9]*\) passed; \([0-9]*\) failed; \([0-9]*\) ignored;.*/\1 \2 \3/p' "$room/$crate")
    # shellcheck disable=SC2086
    set -- ${said:-0 0 0}
    wrong=$(($2 + $3))
    [ "$(cat "$room/$crate.status" 2> /dev/null)" = 0 ] && [ "$1" -gt 0 ] || [ "$wrong" -gt 0 ] || wrong=1
    [ "$wrong" = 0 ] || cat "$room/$crate"
    echo "$crate: $1 tests passed, $wrong failed"
    passed=$((passed + $1)) failed=$((failed + wrong))
done
echo "$passed passed, $failed failed"
[ "$failed" = 0 ]
