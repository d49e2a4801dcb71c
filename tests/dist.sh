#!/bin/sh
# Unpacks the release that `make dist` writes into an empty folder. There, without the toolchain on the PATH: checksums, links,
# what it needs of the C library, manual pages, programs in C, C++, Python and Rust over it, and library and programs at both levels of
# the processor. Silent where all is well but for a line of what was left out; else it says what differs, and ends with status 1.
set -eu
top=$(cd "$(dirname "$0")/.." && pwd)
cd "$top"
headers='import os, sysconfig; raise SystemExit(not os.path.exists(sysconfig.get_paths()["include"] + "/Python.h"))'
if ! command -v cc > /dev/null || ! command -v objcopy > /dev/null || ! python3 -c "$headers" 2> /dev/null; then
    echo "tests/dist.sh: left out: all of it, for want of a C compiler, binutils, or Python with its headers"
    exit 0
fi
room=$(mktemp -d)
trap 'rm -rf "$room"' EXIT
left_out=

wrong() { echo "$1"; exit 1; }

# run COMMAND..: its output is shown only where it fails.
run() {
    "$@" > "$room/log" 2>&1 || { echo "failed: $*"; tail -n 40 "$room/log"; exit 1; }
}

# prints NAME TEXT COMMAND..: what the command must print.
prints() {
    name=$1 wanted=$2
    shift 2
    printed=$("$@" 2>&1) || wrong "$name: status $?, after '$printed'"
    [ "$printed" = "$wanted" ] || wrong "$name: '$printed', not '$wanted'"
}

run make -s dist
run sh tests/reproduce.sh
version=$(sed -n 's/^#define SIMD_JSON_VERSION_[A-Z]* //p' include/simd_json.h | paste -sd.)
release=simd_json-$version-x86_64-linux
tar -xzf "build/$release.tar.gz" -C "$room"
at=$room/$release fast=$room/$release/lib/glibc-hwcaps/x86-64-v3

# The PATH without the toolchain, of whose folder all else stays.
path=
mkdir "$room/path"
for folder in $(echo "$PATH" | tr : ' '); do
    if [ -e "$folder/rt" ]; then
        find "$folder/" -mindepth 1 -maxdepth 1 ! -name 'rt*' ! -name 'rattle*' -exec ln -sf {} "$room/path/" \;
        folder=$room/path
    fi
    path=${path:+$path:}$folder
done
PATH=$path
! command -v rt > /dev/null || wrong "the toolchain is still on the PATH"

(cd "$at" && run sha256sum -c SHA256SUMS)
(cd "$at" && run sh "$top/tests/links.sh" README.md rust/README.md)
[ "$(wc -l < "$at/SHA256SUMS")" = "$(find "$at" -type f ! -name SHA256SUMS | wc -l)" ] || wrong "SHA256SUMS lacks files"

# Nothing needs a glibc after 2.31, or another library.
run python3 -m zipfile -e "$at"/python/simd_json-"$version"-*.whl "$room/wheel"
for file in "$at"/bin/* "$at/lib/libsimd_json.so.$version" "$fast/libsimd_json.so.$version" "$room/wheel/simd_json/_native.abi3.so"; do
    last=$({ objdump -T "$file" | grep -o 'GLIBC_[0-9.]*' || true; echo GLIBC_2.31; } | sort -V | tail -n 1)
    [ "$last" = GLIBC_2.31 ] || wrong "${file#"$room"/} needs $last"
    prints "the libraries of ${file#"$room"/}" libc.so.6 sh -c "objdump -p '$file' | sed -n 's/^ *NEEDED *//p'"
    readelf -d "$file" | grep -Eq 'BIND_NOW|Flags: NOW' || wrong "${file#"$room"/} binds at first use"
done

# What is linked in is listed, each library of the toolchain with a license's text where it has one.
run python3 -B - "$at" << 'END'
import json, pathlib, sys
at = pathlib.Path(sys.argv[1])
packages = {each["name"]: each for each in json.loads((at / "simd_json.spdx.json").read_text())["packages"]}
assert {"simd_json", "memchr", "fast_float", "clap", "std", "rattle-c"} <= packages.keys(), packages.keys()
for name, each in packages.items():
    assert name in ("simd_json", "rattle-c") or (each["licenseDeclared"] == "NOASSERTION") != (at / "licenses" / name).is_dir(), name
END

if command -v groff > /dev/null; then
    for page in "$at"/share/man/man?/*; do prints "${page##*/}" '' groff -ww -man -z -Tutf8 "$page"; done
else
    left_out="$left_out manual pages (no groff);"
fi

# What each program of examples/log prints of log.jsonl, and its status; without the file it fails.
cd "$at/examples/log"
# shellcheck disable=SC2016
log='200 /index.html
404 /café
log.jsonl:3:59: expected a value, found `}`
log.jsonl:4: no status, or no path
200 /
log.jsonl:6: no status, or no path
status 1'
prints_log() {
    prints "$1" "$log" sh -c '"$@" log.jsonl || echo "status $?"' sh "$@"
    ! "$@" missing.jsonl > /dev/null 2>&1 || wrong "$*: status 0 without the file"
}

# C and C++, over the static library, the shared one, and what pkg-config and cmake find.
cc log.c "-I$at/include" "$at/lib/libsimd_json.a" -o "$room/log_c"
prints_log "$room/log_c"
cc ../c/answer.c "-I$at/include" "$at/lib/libsimd_json.a" -o "$room/static"
prints 'C, static' 42 "$room/static"
cc ../c/answer.c "-I$at/include" "-L$at/lib" -lsimd_json -o "$room/shared"
prints 'C, shared' 42 env LD_LIBRARY_PATH="$at/lib" "$room/shared"
if command -v pkg-config > /dev/null; then
    export PKG_CONFIG_PATH="$at/lib/pkgconfig"
    # shellcheck disable=SC2046
    cc ../c/answer.c $(pkg-config --cflags --libs "simd_json = $version") -o "$room/found"
    prints 'C, by pkg-config' 42 env LD_LIBRARY_PATH="$at/lib" "$room/found"
    # shellcheck disable=SC2046
    cc -static ../c/answer.c $(pkg-config --static --cflags --libs simd_json) -o "$room/alone"
    prints 'C, by pkg-config --static' 42 "$room/alone"
else
    left_out="$left_out pkg-config (not installed);"
fi
if command -v cmake > /dev/null; then
    sh "$top/tests/cmake.sh" "$at" "$room/cmake"
else
    left_out="$left_out CMake (not installed);"
fi
if command -v c++ > /dev/null; then
    c++ -std=c++17 log.cpp "-I$at/include" "$at/lib/libsimd_json.a" -o "$room/log_cpp"
    prints_log "$room/log_cpp"
    c++ -std=c++17 "$top/tests/c/wrapper.cpp" "-I$at/include" "$at/lib/libsimd_json.a" -o "$room/wrapper"
    prints 'C++' '' "$room/wrapper"
else
    left_out="$left_out C++ (no c++);"
fi

if python3 -m pip --version > /dev/null 2>&1; then
    run python3 -m pip install --no-index --target "$room/site" "$at"/python/simd_json-*.whl
    for level in x86-64-v2 x86-64-v3; do
        prints "Python, $level" "42 $version" env SIMD_JSON_CPU=$level PYTHONPATH="$room/site" python3 -B -c \
            'import simd_json; print(simd_json.loads(b"[42]")[0], simd_json.__version__)'
    done
    prints_log env PYTHONPATH="$room/site" python3 -B log.py
else
    left_out="$left_out Python (no pip);"
fi

if command -v cargo > /dev/null; then
    left_out="$left_out$(sh "$top/tests/serde.sh" "$room" "$at/rust")"
    run cargo build --offline -q --release --target-dir "$room/target"
    prints_log "$room/target/release/log"
else
    left_out="$left_out Rust (no cargo);"
fi

cd "$top"
deb=build/simd-json-proved_${version}_amd64.deb
if [ -e "$deb" ]; then
    said=$(sh tests/deb.sh "$deb") || wrong "$said"
    left_out="$left_out${said#*left out:}"
else
    left_out="$left_out the Debian package (no dpkg-deb);"
fi

# Both levels: of the library the rows of tests/vectors, of the programs what is known of them, and which of two is begun.
mkdir "$room/slow"
cp "$at/lib/libsimd_json.so.${version%.*}" "$room/slow/"
cc tests/c/rows.c "-I$at/include" "-L$at/lib" -lsimd_json -o "$room/rows"
run env LD_LIBRARY_PATH="$room/slow" sh tests/rows.sh "$room/rows"
run env SIMD_JSON_CPU=x86-64-v2 sh tests/statuses.sh "$at/bin/jtape" "$at/bin/log_report" "$at/bin/jpick" "$at/bin/jcheck"
run env SIMD_JSON_CPU=x86-64-v2 sh tests/places.sh "$at/bin/jcheck"
echo 'int main_v2(int n) { return n + 20; } int main_v3(int n) { return n + 30; }' > "$room/begun.c"
cc -fPIE -pie -nostartfiles scripts/start.c "$room/begun.c" -o "$room/begun"
prints 'at x86-64-v2' 22 sh -c "SIMD_JSON_CPU=x86-64-v2 '$room/begun' word || echo \$?"
if grep -qw avx2 /proc/cpuinfo; then
    run env LD_LIBRARY_PATH="$fast" sh tests/rows.sh "$room/rows"
    run sh tests/statuses.sh "$at/bin/jtape" "$at/bin/log_report" "$at/bin/jpick" "$at/bin/jcheck"
    run sh tests/places.sh "$at/bin/jcheck"
    prints 'at x86-64-v3' 32 sh -c "'$room/begun' word || echo \$?"
    # From glibc 2.33 on the loader finds the faster library by itself.
    [ "$( (getconf GNU_LIBC_VERSION; echo glibc 2.33) | sort -V | head -n 1)" != 'glibc 2.33' ] || run sh -c "LD_LIBRARY_PATH='$at/lib' LD_TRACE_LOADED_OBJECTS=1 '$room/rows' | grep -F '$fast/libsimd_json'"
else
    left_out="$left_out x86-64-v3 (no such processor);"
fi

[ -z "$left_out" ] || echo "tests/dist.sh: left out:${left_out%;}"
