#!/bin/sh
# reproduce.sh: builds again, from the proofs of the crates below, one program and the library that `make dist` has built, in a copy
# of the repository in another folder, as another user where this one is root, and packs the release again there: each file has the same
# bytes. Silent where all is well, else it says what differs, and ends with status 1.
set -eu
cd "$(dirname "$0")/.."
room=$(mktemp -d)
trap 'rm -rf "$room"' EXIT
copy=$room/another-folder
other=nobody
built='libsimd_json.a jpick jpick.o'

# All but what is built again, and what is packed.
mkdir "$copy"
tar -c --exclude=.git --exclude=./build/deb --exclude='./build/simd_json-*' --exclude='./build/*.deb' --exclude=./build/lane \
    --exclude=./crates/jpick_main/out --exclude=./crates/simd_json_c/out . | tar -x -C "$copy"
for file in $built; do rm "$copy/build/x86-64-v2/$file"; done
rm "$copy/build/x86-64-v2/built" "$copy"/build/x86-64-v2/libsimd_json.so.*

as_other() {
    if [ "$(id -u)" = 0 ]; then
        chmod 711 "$room"
        chown -R "$other" "$copy"
        # shellcheck disable=SC2016
        setpriv --reuid="$other" --clear-groups env HOME="$copy" sh -c 'cd "$0" && "$@"' "$copy" "$@"
    else
        (cd "$copy" && "$@")
    fi
}

as_other make -s CPU=x86-64-v2 into=build/x86-64-v2 library jpick > "$room/log" 2>&1 || { tail -n 40 "$room/log"; exit 1; }
different=0
same() { cmp -s "$1" "$copy/$1" || { different=1; echo "$1 differs from what is built in another folder"; }; }
for file in $built; do same "build/x86-64-v2/$file"; done
for file in build/x86-64-v2/libsimd_json.so.*.*.*; do same "$file"; done
as_other sh scripts/dist.sh jtape jcheck jpick log_report > "$room/log" 2>&1 || { tail -n 40 "$room/log"; exit 1; }
for file in build/*.tar.gz build/*.deb build/SHA256SUMS; do [ ! -e "$file" ] || same "$file"; done
exit "$different"
