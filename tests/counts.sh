#!/bin/sh
# The lines of definitions that docs/DESIGN.md counts are those of the files, no file of simd_json_parts is left out, and the sums are
# right. Sources, definitions, proofs (without tests, benchmarks and examples), wrappers and documents (each `*.md` that git tracks)
# are no longer than is said below. Silent where all is well, else a line for each count that is wrong, and status 1.
set -eu
cd "$(dirname "$0")/.."

wrong=$(
    # Each name with a number after it is a file of specs/ with so many lines.
    grep -o '`[A-Za-z]*` [0-9][0-9]*' docs/DESIGN.md | tr -d '`' | while read -r name lines; do
        for file in crates/*/specs/"$name".antt; do
            [ -e "$file" ] && [ "$(wc -l < "$file")" -eq "$lines" ] && continue 2
        done
        echo "DESIGN.md: $name has not $lines lines"
    done
    # Each file of the crate of definitions is counted.
    for file in crates/simd_json_parts/specs/*.antt; do
        name=$(basename "$file" .antt)
        [ "$name" = Lib ] || grep -q "\`$name\` [0-9]" docs/DESIGN.md || echo "DESIGN.md: $name of simd_json_parts is not counted"
    done
    # A row of such counts ends with their sum.
    awk -F'|' '/^\|.*` [0-9]+.*\| [0-9]+ \|$/ {
        row = $3; sum = 0
        while (match(row, /` [0-9]+/)) { sum += substr(row, RSTART + 2, RLENGTH - 2); row = substr(row, RSTART + RLENGTH) }
        if (sum != $4 + 0) print "DESIGN.md: the sum of a row is " sum " and not" $4
    }' docs/DESIGN.md
    # What is added replaces something. A change that needs more raises a number here, in a commit of its own that says for what.
    most() { [ "$2" -le "$3" ] || echo "$1: $2, more than $3"; }
    lines() {
        # shellcheck disable=SC2046
        cat $(find crates -path "crates/*/$1/*" -name "$2" -not -path '*/out/*' |
            grep -vE '^crates/([a-z_]*_(tests|bench|rows)|typed_log|log_fields)/') | wc -l
    }
    most 'lines of sources' "$(lines src '*.rt')" 33800
    most 'lines of definitions' "$(lines specs '*.antt')" 11450
    most 'lines of proofs' "$(lines proofs '*.antt')" 57400
    most 'lines of wrappers, which nothing proves' \
        "$(cat python/native.c include/simd_json.h include/simd_json.hpp bindings/rust/src/*.rs bindings/rust/src/*/*.rs | wc -l)" 4500
    most 'words of documents, without code' \
        "$(git ls-files '*.md' | xargs cat | awk '/^ *```/ { code = !code; next } !code' | wc -w)" 10500
)
if [ -n "$wrong" ]; then
    printf '%s\n' "$wrong" >&2
    exit 1
fi
