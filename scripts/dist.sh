#!/bin/sh
# dist.sh PROGRAM..: packs build/simd_json-VERSION-x86_64-linux.tar.gz from what `make dist` has built at two levels of the
# processor, in build/x86-64-v2 and build/x86-64-v3. Library and programs ask for no glibc after 2.31.
set -eu
umask 022
cd "$(dirname "$0")/.."
version=$(sed -n 's/^#define SIMD_JSON_VERSION_[A-Z]* //p' include/simd_json.h | paste -sd.)
name=simd_json-$version-x86_64-linux
v2=build/x86-64-v2 v3=build/x86-64-v3 parts=build/parts to=build/$name
kit=$(dirname "$(readlink -f "$(command -v rt)")")/..

rm -rf "$to" "$to.tar.gz"
mkdir -p "$parts" "$to/bin" "$to/share/man/man1" "$to/share/bash-completion/completions" "$to/python" "$to/rust" "$to/lib/glibc-hwcaps/x86-64-v3"

# The library. The loader of glibc 2.33 and later finds the faster one by itself, and pkg-config the folder that it is in.
make -s install-library into="$v2" PREFIX="$to"
# shellcheck disable=SC2016
sed -i 's|^prefix=.*|prefix=${pcfiledir}/../..|; s|^Description:.*|&; the static library is for x86-64-v2|' \
    "$to/lib/pkgconfig/simd_json.pc"
cp -P "$v3"/libsimd_json.so.* "$to/lib/glibc-hwcaps/x86-64-v3/"

# Each program in one file, with both levels.
for program in "$@"; do
    objcopy --redefine-sym main=main_v2 "$v2/$program.o" "$parts/v2.o"
    objcopy --redefine-sym main=main_v3 "$v3/$program.o" "$parts/v3.o"
    cc -O2 -Wall -Wextra -Werror -fPIE -pie -nostartfiles -s -Wl,-z,relro,-z,now -o "$to/bin/$program" scripts/start.c \
        "$parts/v2.o" "$parts/v3.o" "$kit/c/libos_c.a" "$kit/c/liblibc_c.a"
    cp "man/$program.1" "$to/share/man/man1/"
    cp completions/simd_json.bash "$to/share/bash-completion/completions/$program"
done

SIMD_JSON_LIB_DIR=$v2 SIMD_JSON_V3_LIB_DIR=$v3 python3 -B python/backend.py "$to/python" > /dev/null
cp -R bindings/rust/Cargo.toml bindings/rust/README.md bindings/rust/build.rs bindings/rust/src "$to/rust/"
cp LICENSE-MIT LICENSE-APACHE CHANGELOG.md SECURITY.md "$to/"
# shellcheck disable=SC2046
python3 -B scripts/sbom.py "$to" $(printf '%s_main ' "$@") simd_json_c
mkdir -p "$to/docs" "$to/examples/c" "$to/examples/log"
cp docs/READING.md docs/PROGRAMS.md "$to/docs/"
cp examples/c/answer.c "$to/examples/c/"
for file in log.c log.cpp log.py log.rs Cargo.toml log.jsonl; do cp "examples/log/$file" "$to/examples/log/"; done
{ printf '# simd_json %s\n' "$version" && sed -n '/^## From the release/,/^## /{/^## /d;p;}' docs/INSTALL.md | sed 's|(\.\./|(|g'; } > "$to/README.md"

(cd "$to" && find . -type f | LC_ALL=C sort | xargs sha256sum) > "$parts/SHA256SUMS"
mv "$parts/SHA256SUMS" "$to/"
tar -C build --sort=name --owner=0 --group=0 --numeric-owner --mtime=2026-01-01T00:00Z -c "$name" | gzip -9n > "$to.tar.gz"
(cd build && sha256sum "$name.tar.gz" | tee SHA256SUMS)
sh scripts/deb.sh
