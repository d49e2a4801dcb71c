#!/bin/sh
# The benchmark: `make bench` calls it. From the top of the repository: sh bench/run.sh [FILE..]
# Times the texts that bench/texts.py makes, each FILE, a log of 1,000,000 lines, tasks, typed reading, and the shapes of
# bench/shapes.py, which are made to be slow, and prints seven tables. ROUNDS says how often, PLACEMENTS at how many places our
# code is timed.
# With SAVE=1 the tables are put into docs/SPEED.md, between its marks, their mean into README.md, and docs/speed.svg is drawn;
# without, build/bench has the chart.
# It installs nothing: a parser whose package is absent is left out, and named before anything is built. SAVE=1 needs all.
set -eu
cd "$(dirname "$0")/.."
OUT=$PWD/build/bench
ROUNDS=${ROUNDS:-11}
PLACEMENTS=${PLACEMENTS:-4}
REGISTRY=/usr/share/cargo/registry
KIT=$(dirname "$(dirname "$(readlink -f "$(command -v rt)")")")
mkdir -p "$OUT"

say() { echo "bench: $*" >&2; }

# What no part can do without.
missing=
for command in rt make cc c++ ar ld nm objcopy python3; do
    command -v "$command" > /dev/null || missing="$missing $command"
done
for file in "$KIT/c/liblibc_c.a" "$KIT/c/libos_c.a" "$@"; do
    [ -r "$file" ] || missing="$missing $file"
done
[ -z "$missing" ] || { say "not found:$missing"; exit 1; }

# What is timed besides, if it is there; packages are Debian's.
left_out=
absent() { left_out="$left_out, $1"; }
levels=x86-64-v2
kernel=westmere
if grep -qw avx2 /proc/cpuinfo && grep -qw bmi2 /proc/cpuinfo; then
    levels="$levels x86-64-v3"
    kernel=haswell
else
    absent "level x86-64-v3, which this processor lacks"
fi
# has HEADER [LIBRARY]: whether programs in C++ are compiled and linked with it.
has() { printf '#include <%s>\nint main() {}\n' "$1" | c++ -x c++ - -o "$OUT/probe" ${2:+"$2"} 2> /dev/null; }
libraries=
if has simdjson.h -lsimdjson; then libraries="$libraries -lsimdjson"; else absent libsimdjson-dev; fi
if has yajl/yajl_parse.h -lyajl; then libraries="$libraries -lyajl"; else absent libyajl-dev; fi
has rapidjson/document.h || absent rapidjson-dev
rust=yes
for package in cargo serde_json serde_derive; do
    case $package in
        cargo) command -v cargo > /dev/null || { rust=; absent cargo; } ;;
        *) ls -d $REGISTRY/"$package"-* > /dev/null 2>&1 || { rust=; absent "librust-$(echo $package | tr _ -)-dev"; } ;;
    esac
done
if [ "${SAVE:-}" = 1 ]; then
    texts=
    for text in canada citm_catalog github_events gsoc-2018 numbers random twitter twitterescaped; do
        for file; do [ "${file##*/}" != $text.json ] || continue 2; done
        texts="$texts $text.json"
    done
    [ -z "$texts" ] || absent "FILES with Boost.JSON's$texts"
    [ -z "$left_out" ] || { say "SAVE=1 also needs ${left_out#, }"; exit 1; }
fi
[ -z "$left_out" ] || say "left out: ${left_out#, }"

# The harness finds the headers by itself. What is in headers alone, as simdjson's On-Demand, is built for our highest level.
# shellcheck disable=SC2086
c++ -std=c++20 -O3 -march=$kernel -DNDEBUG -DRAPIDJSON_SSE42 -Iinclude bench/harness.cpp -o "$OUT/harness" $libraries -ldl
python3 bench/texts.py "$OUT/texts" "$@"

# Ours, at each level: a static library, and that as shared ones, so that all fit into one process. Where the linker puts the
# code, 16 bytes up or down, can change what a text costs by half, and is chance. So the code is linked behind 0, 16, 32 bytes
# of padding and so on, each of these is timed, and the tables have the median. The others are timed where they lie.
# shared CRATE: the crate at $level as a shared library, behind the padding.
shared() {
    cc -shared -o "$OUT/$1-$level-$placement.so" "$OUT/padding.o" -Wl,--whole-archive "$OUT/$1-$level.a" -Wl,--no-whole-archive \
        "$KIT/c/liblibc_c.a" "$KIT/c/libos_c.a" -Wl,-Bsymbolic
}
parses=
calls=
scans=
rejections=
for level in $levels; do
    # All that is not proved yet is proved side by side, at the first level; the second takes these proofs. Each level's static
    # libraries are written to the same files, so they are copied.
    say "proving and building the libraries at $level"
    make -s proved-simd_json_bench proved-simd_json_typed_bench library CPU="$level" into="$OUT/c-$level" >&2
    for crate in simd_json_bench simd_json_typed_bench; do cp "crates/$crate/out/lib$crate.a" "$OUT/$crate-$level.a"; done
    tasks=
    typed=
    placement=0
    while [ "$placement" -lt "$PLACEMENTS" ]; do
        echo "__asm__(\".text; .fill 16 * $placement, 1, 0x90\");" | cc -c -x c - -o "$OUT/padding.o"
        shared simd_json_bench
        shared simd_json_typed_bench
        cc -shared -o "$OUT/c-$level-$placement.so" "$OUT/padding.o" \
            -Wl,--whole-archive "$OUT/c-$level/libsimd_json.a" -Wl,--no-whole-archive -Wl,-Bsymbolic
        library=$OUT/simd_json_bench-$level-$placement.so
        parses="$parses parse-${level#x86-64-}=$library"
        calls="$calls c-${level#x86-64-}=$OUT/c-$level-$placement.so"
        scans="$scans scan-${level#x86-64-}=$library"
        rejections="$rejections reject-${level#x86-64-}=$library"
        tasks="$tasks tasks-${level#x86-64-}=$library"
        typed="$typed typed-${level#x86-64-}=$OUT/simd_json_typed_bench-$level-$placement.so"
        placement=$((placement + 1))
    done
done

serde=
stream=
if [ "$rust" ]; then
    mkdir -p "$OUT/rust"
    cp bench/rust/Cargo.toml bench/rust/*.rs "$OUT/rust/"
    ln -sfn ../bindings build/bindings
    (cd "$OUT/rust" && SIMD_JSON_LIB_DIR="$OUT/c-$level" RUSTFLAGS='-C target-cpu=native' cargo build --release --offline -q \
        --config 'source.crates-io.replace-with="system"' --config "source.system.directory=\"$REGISTRY\"")
    serde=serde_json=$OUT/rust/target/release/librust_entries.so
    stream=stream=${serde#serde_json=}
fi

say "timing"
# shellcheck disable=SC2086
"$OUT/harness" "$ROUNDS" "$OUT"/texts/kinds/*.json "$@" -- simdjson stage1 rapidjson yajl $serde $parses $calls $scans > "$OUT/kinds.tsv"
# shellcheck disable=SC2086
"$OUT/harness" "$ROUNDS" "$OUT"/texts/varied/*.jsonl -- simdjson stage1 $parses $scans > "$OUT/varied.tsv"
# shellcheck disable=SC2086
"$OUT/harness" "$ROUNDS" "$OUT"/texts/sizes/*.json -- simdjson $parses > "$OUT/sizes.tsv"
# shellcheck disable=SC2086
"$OUT/harness" "$ROUNDS" "$OUT/texts/lines/log.jsonl" -- simdjson many $stream $parses > "$OUT/lines.tsv"
: > "$OUT/tasks.tsv"
for task in 0:twitter.json 1:twitter.json 2:twitter.json 3:twitter.json 4:citm_catalog.json 5:canada.json 6:canada.json 7:log.jsonl 8:citm_catalog.json 9:citm_catalog.json; do
    words=
    for contender in simdjson rapidjson $tasks; do words="$words ${task%%:*}:$contender"; done
    # shellcheck disable=SC2086
    "$OUT/harness" "$ROUNDS" "$OUT/texts/tasks/${task#*:}" -- $words >> "$OUT/tasks.tsv"
done

: > "$OUT/typed.tsv"
for form in lines:log.jsonl tweets:twitter.json tweets:twitterescaped.json map:canada.json; do
    words=
    for contender in $serde $typed; do words="$words ${form%%:*}:$contender"; done
    # shellcheck disable=SC2086
    "$OUT/harness" "$ROUNDS" "$OUT/texts/tasks/${form#*:}" -- $words >> "$OUT/typed.tsv"
done

# The documents have all but the shapes, which take longest.
processor=$(sed -n 's/([RTM]*)//g; s/^model name[^:]*: //p' /proc/cpuinfo | head -n 1)
echo "$(LC_ALL=C date '+%-d %B %Y'), $processor, $ROUNDS rounds, $PLACEMENTS placements" > "$OUT/when"
python3 -B bench/chart.py "$OUT" "$processor" > "$OUT/speed.svg"
if [ "${SAVE:-}" = 1 ]; then
    python3 -B bench/tables.py "$OUT" docs/SPEED.md README.md
    cp "$OUT/speed.svg" docs/speed.svg
    say "docs/SPEED.md, README.md and docs/speed.svg have these results"
else
    say "the chart is $OUT/speed.svg; SAVE=1 puts tables and chart into docs/"
fi

# Their samples are 64 times as long.
# shellcheck disable=SC2086
sh bench/shapes.sh "$OUT" $(((ROUNDS + 3) / 4)) "$OUT/simd_json_bench-x86-64-v2-0.so" $parses $rejections
python3 -B bench/tables.py "$OUT" > "$OUT/tables.md"
cat "$OUT/tables.md"
