#!/bin/sh
# Runs the section "A Rattle program" of docs/INSTALL.md as it is printed there: its `sh` blocks in an empty folder beside this repository, with
# its `rust` block saved under the name that the text gives, compares what is printed, tries the blocks of docs/READING.md, and
# tries `make vendor` where something is there already. It proves nothing: the first `rt run` takes about ten minutes. Silent
# where all is well, else status 1.
set -eu
top=$(cd "$(dirname "$0")/.." && pwd)
room=$(mktemp -d)
trap 'rm -rf "$room"' EXIT
mkdir "$room/empty" "$room/theirs"
ln -s "$top" "$room/simd_json"

different=0
wrong() { different=1; echo "$1"; }

# The section as one script. A `rust` block goes to the file that the text before it names.
awk -v ticks='```' '
    /^## / { inside = ($0 == "## A Rattle program") }
    !inside { next }
    $0 == ticks && block == "rust" { print "THE_END" }
    $0 == ticks { block = "" }
    block != "" { print }
    $0 == ticks "sh" { block = "sh" }
    $0 == ticks "rust" { block = "rust"; print "cat > " file " << '"'THE_END'"'" }
    match($0, /Save this as `[^`]*`/) { file = substr($0, RSTART + 14, RLENGTH - 15) }
    match($0, /^It prints `[^`]*`/) { print substr($0, RSTART + 11, RLENGTH - 12) > wanted }
' wanted="$room/wanted" "$top/docs/INSTALL.md" > "$room/script"
(cd "$room/empty" && sh -eu "$room/script") > "$room/out" 2> "$room/err" || { cat "$room/out" "$room/err"; exit 1; }
tail -n 1 "$room/out" | cmp -s - "$room/wanted" || wrong "docs/INSTALL.md: not what it says is printed: $(cat "$room/out")"
[ -z "$(find "$room"/empty/crates/simd_json* -mindepth 1 -maxdepth 1 ! -name src ! -name specs ! -name proofs ! -name 'LICENSE-*')" ] ||
    wrong "make vendor copies more than src, specs, proofs and the licenses"

# Each `rust` block of docs/READING.md compiles as it is printed there.
make -s -C "$top" vendor DIR="$room/empty" CRATES=simd_json_serde > "$room/out" 2>&1 && [ -d "$room/empty/crates/simd_json_serde/src" ] ||
    wrong "make vendor does not copy the crate that is named: $(cat "$room/out")"
mkdir -p "$room/empty/crates/reading/src"
echo 'reading: simd_json simd_json_serde serde fast_float' >> "$room/empty/crates.txt"
awk -v ticks='```' -v folder="$room/empty/crates/reading/src" '
    BEGIN { print "//! The blocks, each in a module.\n#![tactic(auto)]\n" }
    $0 == ticks { file = "" }
    file != "" { print > file }
    $0 == ticks "rust" { file = folder "/block" ++blocks ".rt"; print "mod block" blocks ";" }
    END { print "\nfn main(_rt: HostRuntime) {}" }
' "$top/docs/READING.md" > "$room/empty/crates/reading/src/main.rt"
(cd "$room/empty/crates/reading" && rt try) > "$room/out" 2>&1 || wrong "docs/READING.md: $(cat "$room/out")"

# again FOLDER STATUS: copies into the folder once more, which must leave all as it is.
again() {
    (cd "$1" && find . -type f -exec cksum {} +) > "$room/before"
    status=0
    make -s -C "$top" vendor DIR="$1" > "$room/out" 2> "$room/err" || status=$?
    [ "$status" = "$2" ] || wrong "make vendor over $3: status $status, wanted $2"
    [ "$2" = 0 ] || grep -q 'nothing was copied' "$room/err" || wrong "make vendor over $3 does not say that nothing was copied"
    (cd "$1" && find . -type f -exec cksum {} +) | cmp -s - "$room/before" || wrong "make vendor over $3 changed something"
}
again "$room/empty" 0 "its own crates"
make -s -C "$top" vendor DIR="$room/theirs" CRATES=simd > "$room/out" 2>&1 && wrong "make vendor copies a crate that is not there"
echo '// a change' >> "$room/empty/crates/simd_json_print/src/lib.rt"
again "$room/empty" 2 "a crate that was changed"
grep -q 'of simd_json [0-9.]*; .*REPLACE=1' "$room/err" || wrong "make vendor does not say which version is there"
make -s -C "$top" vendor DIR="$room/empty" REPLACE=1 > "$room/out" 2>&1 || wrong "make vendor REPLACE=1: $(cat "$room/out")"
again "$room/empty" 0 "what it has replaced"
mkdir -p "$room/theirs/crates/simd_json_parts/src"
echo '// another crate' > "$room/theirs/crates/simd_json_parts/src/lib.rt"
again "$room/theirs" 2 "a crate of the same name"
rm -r "$room/theirs/crates/simd_json_parts"
echo 'simd_json: memchr' > "$room/theirs/crates.txt"
again "$room/theirs" 2 "a line of the same name"
exit "$different"
