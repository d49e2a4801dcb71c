#!/bin/sh
# Runs the rows of tests/vectors and, without PROGRAM, those of 2,000 random queries (tests/path.py, if there is Python) through the
# program that the gate has built: each file must come out unchanged. Silent where it does; else it shows each row with the result
# that is wanted (-) and the one that was found (+), and ends with status 1.
#
# usage: sh tests/rows.sh [PROGRAM]
set -u
cd "$(dirname "$0")/.." || exit 1
program=${1:-crates/simd_json_rows/out/simd_json_rows}
[ -x "$program" ] || { echo "$program is not there: run rt run in crates/simd_json_rows" >&2; exit 1; }
found=$(mktemp) && random=$(mktemp) || exit 1
trap 'rm -f "$found" "$random"' EXIT
different=0
if [ $# -eq 0 ] && command -v python3 > /dev/null; then
    python3 -B tests/path.py 2000 > "$random" || different=1
fi
for rows in tests/vectors/*.txt "$random"; do
    "$program" < "$rows" > "$found" || { echo "$rows: status $?"; different=1; }
    diff -U 0 "$rows" "$found" || different=1
done
exit "$different"
