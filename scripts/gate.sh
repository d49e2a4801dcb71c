#!/bin/sh
# The gate. It proves every library, program and example from nothing (where no earlier run on this machine passed the same files),
# runs each program as two compilers build it, and tries must-fail edits: all that is `rt ci`, over the crates that are proved. Beside
# it every test runs without a proof (tests/unit.sh). The last line is 'N passed, M failed', of all this together.
#
# Of the edits, crates/NAME/edits/*.edit, those of a crate are tried unless its line in edits.txt fits: the sum of all that they were
# tried on. `edits` runs no test, and writes that file; nothing else may, and its last line tells where something has.
#
# usage: sh scripts/gate.sh [edits [CRATE..]]       ANEW=1: as if nothing had been proved or tried before
#     edits CRATE..: tries those of these crates alone, over what `rt check` kept, and writes nothing
#
# The crates are copied to build/gate, without tests and without edits that need not be tried, and what was built there is moved to
# each crate's out/.
set -u
cd "$(dirname "$0")/.." || exit 1
. scripts/crates.sh
mode=${1:-}
[ $# -eq 0 ] || shift
gate=build/gate
# Another run in this folder ends first.
mkdir -p build/log
exec 9> build/log/lock && flock 9 || exit 1
rm -rf build/lane "$gate"
mkdir -p "$gate/.git" "$gate/crates"
beside=
leave() {
    [ -z "$beside" ] || kill -- "-$beside" 2> /dev/null
    rm -rf "$gate"
}
trap leave EXIT
trap 'exit 1' HUP INT TERM

stop() {
    echo "gate: $1" >&2
    echo '0 passed, 1 failed'
    exit 1
}

# Nothing escapes: each folder is a crate, each file of code or proof is in one, and tests are in those that are not proved.
for folder in crates/*/; do
    grep -q "^$(basename "$folder")[ :]" crates.txt || stop "$folder has no line in crates.txt"
done
lost=$(find . -path ./.git -prune -o -path ./build -prune -o -path './crates/*/out' -prune -o \( -name '*.rt' -o -name '*.antt' \) -print |
    grep -vE '^\./crates/[a-z0-9_]+/(src/.*\.rt|(specs|proofs)/.*\.antt)$')
[ -z "$lost" ] || stop "no check reads $lost"
proved=$(for crate in $(all_crates); do ! is_proved "$crate" || echo "$crate"; done)
for crate in $proved; do
    ! grep -rlE '^ *#\[(cfg\(test\)|test)\]' "crates/$crate/src" || stop "crates/$crate has a test: it belongs into a crate that ends with _tests"
done

# sum_of CRATE: of all that its edits are tried on: its line in crates.txt, code, definitions, proofs and edits, and those of the
# crates below without their edits.
find crates -path 'crates/*/out' -prune -o -type f -exec sha256sum {} + > "$gate/sums"
sum_of() {
    {
        for name in $(below "$1") "$1"; do
            sed -n "/^${name}[ :]/p" crates.txt
            grep -E "  crates/$name/(src|specs|proofs)/" "$gate/sums"
        done
        grep "  crates/$1/edits/" "$gate/sums"
    } | LC_ALL=C sort -u | sha256sum | cut -d ' ' -f 1
}

# The file of what was tried: a line 'CRATE EDITS DATE SUM' for each crate, and last the sum of all lines before.
written=$(sed '$d' edits.txt 2> /dev/null | sha256sum | cut -d ' ' -f 1)
before=edits.txt
if [ -n "${ANEW:-}" ] && [ "$mode" = edits ]; then
    before=/dev/null
elif [ -e edits.txt ] && [ "$(tail -n 1 edits.txt)" != "sum $written" ]; then
    [ "$mode" = edits ] || stop 'edits.txt is not as make edits wrote it: run make edits'
    before=/dev/null
fi
tried='' all=0
for crate in $proved; do
    [ ! -e "crates/$crate/must-fail" ] || stop "crates/$crate/must-fail is tried by nobody: edits are in crates/$crate/edits"
    edits=$(find "crates/$crate" -path "crates/$crate/edits/*.edit" | wc -l)
    [ "$edits" -gt 0 ] || continue
    all=$((all + edits))
    [ "$edits" -le 25 ] || stop "crates/$crate has $edits edits, and 25 are the most"
    [ "$all" -le 130 ] || stop "there are $all edits, and 130 are the most"
    line="$crate $edits $(sum_of "$crate")"
    echo "$line" >> "$gate/lines"
    if [ $# -gt 0 ]; then
        case " $* " in *" $crate "*) tried="$tried $crate" ;; esac
    elif ! awk '{ print $1, $2, $4 }' "$before" 2> /dev/null | grep -qxF "$line"; then
        tried="$tried $crate"
    fi
done
unknown=$(sed '/^#/d; $d' edits.txt 2> /dev/null | while read -r crate _; do [ -d "crates/$crate/edits" ] || echo "$crate"; done)
[ "$mode" = edits ] || [ -z "$unknown" ] || stop "edits.txt has a line of $unknown, which has no edits: run make edits"
[ -z "$tried" ] || echo "edits are tried of:$tried"

cp HANDLES "$gate/"
for crate in $proved; do
    sed -n "/^${crate}[ :]/p" crates.txt >> "$gate/crates.txt"
    mkdir "$gate/crates/$crate"
    for part in src specs proofs args stdin stdout status data; do
        [ ! -e "crates/$crate/$part" ] || cp -R "crates/$crate/$part" "$gate/crates/$crate/"
    done
    case " $tried " in *" $crate "*) cp -R "crates/$crate/edits" "$gate/crates/$crate/must-fail" ;; esac
done

if [ $# -gt 0 ]; then
    (cd "$gate" && rt must-fail "$@")
    exit
fi

passed=0 failed=0
# count FILE: adds what its last line counts, or a failure.
count() {
    # shellcheck disable=SC2046
    set -- $(tail -n 1 "$1" | sed -n 's/^\([0-9]*\) passed, \([0-9]*\) failed$/\1 \2/p')
    passed=$((passed + ${1:-0})) failed=$((failed + ${2:-1}))
}

if [ "$mode" != edits ]; then
    setsid sh tests/unit.sh > build/log/tests 2>&1 &
    beside=$!
fi
(cd "$gate" && rt ci ${ANEW:+--anew}) 2>&1 | tee build/log/gate
for crate in $proved; do
    [ -d "$gate/crates/$crate/out" ] || continue
    mkdir -p "crates/$crate/out"
    for made in "$gate/crates/$crate/out"/*; do
        [ -e "$made" ] || continue
        rm -rf "crates/$crate/out/$(basename "$made")"
        mv "$made" "crates/$crate/out/"
    done
done
count build/log/gate
# `rt ci` passes an edit that it can't apply.
bad=$(grep -c 'BAD EDIT' build/log/gate)
failed=$((failed + bad))
if [ -n "$beside" ]; then
    wait "$beside"
    beside=
    cat build/log/tests
    count build/log/tests
fi

if [ "$mode" = edits ] && [ "$failed" = 0 ]; then
    {
        echo '# The must-fail edits that were tried and rejected: crate, how many, when, and the sum of all that they were tried on.'
        echo '# Written by "make edits" alone.'
        while read -r crate edits sum; do
            day=$(date -u +%F)
            case " $tried " in *" $crate "*) ;; *) day=$(awk -v crate="$crate" '$1 == crate { print $3 }' "$before") ;; esac
            echo "$crate $edits $day $sum"
        done < "$gate/lines"
    } > "$gate/edits.txt"
    echo "sum $(sha256sum < "$gate/edits.txt" | cut -d ' ' -f 1)" >> "$gate/edits.txt"
    mv "$gate/edits.txt" edits.txt
fi
echo "$passed passed, $failed failed"
[ "$failed" = 0 ]
