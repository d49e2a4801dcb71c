#!/bin/sh
# Copies crates, simd_json if none is named, and those of this repository that they depend on, by crates.txt, into another
# repository's crates/, with what proving them needs (src, specs, proofs) and the licenses, and adds their lines to its crates.txt.
# What is there already stays as it is. If a crate or a line with such a name is there and differs, or a crate that is named is not
# here, says so, copies nothing, and ends with status 1. A line that it adds names the version, as a comment; with REPLACE=1 crates
# whose line does are replaced.
#
# usage: sh scripts/vendor.sh DIR [CRATE..]
#     as `make vendor DIR=DIR CRATES="CRATE.." [REPLACE=1]` does; DIR is the folder that holds crates.txt, or is to
set -eu
ours=$(cd "$(dirname "$0")/.." && pwd)
if [ $# -eq 0 ] || ! [ -d "$1" ]; then
    echo "usage: make vendor DIR=FOLDER [CRATES=\"CRATE..\"], the folder of another repository" >&2
    exit 2
fi
theirs=$(cd "$1" && pwd)
shift

# line CRATE FOLDER: the crate's line in the folder's crates.txt, without its comment.
line() { [ ! -e "$2/crates.txt" ] || sed -n "s/[[:space:]]*#.*//; /^[[:space:]]*$1[[:space:]:]/p" "$2/crates.txt"; }
words() { echo "$1" | sed 's/:/ : /' | xargs; }

version=$(sed -n 's/^#define SIMD_JSON_VERSION_[A-Z]* //p' "$ours/include/simd_json.h" | paste -sd.)
# copied CRATE: the version of the copy that is there.
copied() { [ ! -e "$theirs/crates.txt" ] || sed -n "s/^[[:space:]]*$1[[:space:]:].*# simd_json \([0-9.]*\)\$/\1/p" "$theirs/crates.txt"; }

differs=
for name in "${@:-simd_json}"; do
    [ -d "$ours/crates/$name" ] || differs="$name is no crate of this repository"
done
crates=$(cd "$ours" && . scripts/crates.sh && for name in "${@:-simd_json}"; do below "$name"; echo "$name"; done | awk '!seen[$0]++')

# other CRATE WORDS: what is there is another, which is replaced or prevents the copy.
replaced=
other() {
    there=$(copied "$1")
    if [ -n "$there" ] && [ -n "${REPLACE:-}" ]; then
        replaced="$replaced $1"
    else
        differs="$2${there:+ (of simd_json $there; this is $version, and REPLACE=1 replaces it)}"
    fi
}

[ ! -s "$theirs/crates.txt" ] || [ -d "$theirs/crates" ] || differs="$theirs has crates.txt and no folder crates"
for name in $crates; do
    there=$(line "$name" "$theirs")
    [ -z "$there" ] || [ "$(words "$there")" = "$(words "$(line "$name" "$ours")")" ] || other "$name" "$theirs/crates.txt has another $name"
    [ -e "$theirs/crates/$name" ] || continue
    for part in src specs proofs; do
        [ -e "$ours/crates/$name/$part" ] || [ -e "$theirs/crates/$name/$part" ] || continue
        diff -rq "$ours/crates/$name/$part" "$theirs/crates/$name/$part" > /dev/null 2>&1 ||
            other "$name" "$theirs/crates/$name is another crate or version"
    done
done
if [ -n "$differs" ]; then
    echo "vendor: $differs: nothing was copied" >&2
    exit 1
fi

for name in $replaced; do
    rm -rf "$theirs/crates/$name/src" "$theirs/crates/$name/specs" "$theirs/crates/$name/proofs"
    sed -i "/^[[:space:]]*$name[[:space:]:]/d" "$theirs/crates.txt"
done
for name in $crates; do
    if ! [ -e "$theirs/crates/$name/src" ]; then
        mkdir -p "$theirs/crates/$name"
        for part in src specs proofs; do
            [ ! -e "$ours/crates/$name/$part" ] || cp -R "$ours/crates/$name/$part" "$theirs/crates/$name/"
        done
        cp "$ours"/LICENSE-* "$theirs/crates/$name/"
    fi
    if [ -z "$(line "$name" "$theirs")" ]; then
        # The last line may lack its line feed.
        [ ! -s "$theirs/crates.txt" ] || [ -z "$(tail -c 1 "$theirs/crates.txt")" ] || echo >> "$theirs/crates.txt"
        echo "$(line "$name" "$ours") # simd_json $version" >> "$theirs/crates.txt"
    fi
done
# shellcheck disable=SC2086
echo "vendor: $theirs/crates has" $crates
