#!/bin/sh
# Calls the library from C and from Python: the rows of tests/vectors and 1,000 mutants against Python's json, memory of each
# size, each allocation rejected, all under valgrind too, and the header's example after an install. Silent where all is well
# but for a line of what was left out; else it says what differs, and ends with status 1.
set -eu
cd "$(dirname "$0")/.."
if ! command -v cc > /dev/null || ! command -v objcopy > /dev/null; then
    echo "tests/c.sh: left out: all of it, for want of a C compiler and binutils"
    exit 0
fi
room=$(mktemp -d)
trap 'rm -rf "$room"' EXIT
left_out=

# by COMMAND..: each file of rows must come out of the command unchanged.
by() {
    for rows in tests/vectors/*.txt; do
        "$@" < "$rows" > "$room/rows.out"
        diff "$rows" "$room/rows.out" || { echo "$rows differs by $*"; exit 1; }
    done
}

make -s library > "$room/log" 2>&1 || { tail -n 20 "$room/log"; exit 1; }
flags='-std=gnu11 -O1 -Wall -Wextra -Werror -Iinclude'
for program in rows calls lent changed mutants; do
    # shellcheck disable=SC2086
    cc $flags tests/c/$program.c build/libsimd_json.a -o "$room/$program"
done
# shellcheck disable=SC2086
cc $flags tests/c/memory.c build/libsimd_json.a -Wl,--wrap=malloc,--wrap=realloc,--wrap=free -o "$room/memory"
# shellcheck disable=SC2086
cc $flags -pthread tests/c/deep.c build/libsimd_json.a -o "$room/deep"
for program in calls lent changed memory deep; do "$room/$program"; done
by "$room/rows"

if command -v python3 > /dev/null; then
    by python3 -B tests/c/rows.py build/libsimd_json.so
    python3 -B tests/c/mutants.py write "$room/answers"
    "$room/mutants" "$room/answers"
    python3 -B tests/c/mutants.py compare "$room/answers" build/libsimd_json.so
else
    left_out="$left_out the mutants and the calls from Python (no python3);"
fi

if command -v valgrind > /dev/null; then
    check='valgrind -q --leak-check=full --error-exitcode=1'
    for program in calls lent changed "mutants $room/answers"; do
        [ -e "$room/answers" ] || [ "$program" != "mutants $room/answers" ] || continue
        # shellcheck disable=SC2086
        $check "$room"/$program
    done
    # shellcheck disable=SC2086
    by $check "$room/rows"
else
    left_out="$left_out valgrind (not installed);"
fi

# The version is the header's everywhere, and the shared library has its first two numbers, as long as the first is 0, in its soname
# and at each symbol.
version=$(sed -n 's/^#define SIMD_JSON_VERSION_[A-Z]* //p' include/simd_json.h | paste -sd.)
for named in "CHANGELOG.md:## $version" "docs/INSTALL.md:simd_json-$version-x86_64" "bindings/rust/Cargo.toml:version = \"$version\"" \
    crates/jcheck/src/options.rt:".version(\"$version\")" crates/jpick/src/options.rt:".version(\"$version\")" \
    crates/log_report/src/options.rt:".version(\"$version\")"; do
    grep -qF "${named#*:}" "${named%%:*}" || { echo "${named%%:*} has another version than $version"; exit 1; }
done
abi=${version%.*}
readelf -d "build/libsimd_json.so.$version" | grep -q "(SONAME).*\[libsimd_json.so.$abi\]" || { echo "no soname"; exit 1; }
wrong=$(nm -D --defined-only build/libsimd_json.so | grep -v -e " T simd_json_[a-z0-9_]*@@SIMD_JSON_$abi\$" -e " A SIMD_JSON_$abi\$" || true)
[ -z "$wrong" ] || { echo "libsimd_json.so has other symbols: $wrong"; exit 1; }

# The statuses of the header are the crate's.
sed -n '/SIMD_JSON_OK = 0/,/};/s/^ *SIMD_JSON_\([A-Z0-9_]*\) = \([0-9]*\).*/\1 \2/p' include/simd_json.h > "$room/statuses"
sed -n 's/^pub(crate) const \([A-Z0-9_]*\): i32 = \([0-9]*\);/\1 \2/p' crates/simd_json_c/src/status.rt | diff "$room/statuses" - \
    || { echo "crates/simd_json_c/src/status.rt has other statuses than the header"; exit 1; }

# The header's example, as it is written there, against what `make install` puts into a folder.
make -s install-library PREFIX="$room/installed"
sed -n '/^ \*     }$/{s/^ \*     //p;q;};s/^ \*     //p' include/simd_json.h > "$room/example.c"
grep -v -e '^/\*' -e '^$' examples/c/answer.c | cmp - "$room/example.c" || { echo "examples/c/answer.c is not the header's"; exit 1; }
example="$room/example.c -o $room/example"
if command -v pkg-config > /dev/null; then
    export PKG_CONFIG_PATH="$room/installed/lib/pkgconfig"
    found=$(pkg-config --cflags --libs "simd_json = $version")
    # shellcheck disable=SC2046,SC2086
    cc -static $example $(pkg-config --static --cflags --libs simd_json)
    printed=$("$room/example")
    [ "$printed" = 42 ] || { echo "by pkg-config --static the example prints '$printed', not 42"; exit 1; }
else
    left_out="$left_out pkg-config (not installed);"
    found="-I$room/installed/include -L$room/installed/lib -lsimd_json"
fi
# shellcheck disable=SC2086
cc $example $found
printed=$(LD_LIBRARY_PATH="$room/installed/lib" "$room/example")
[ "$printed" = 42 ] || { echo "the header's example prints '$printed', not 42"; exit 1; }
if command -v cmake > /dev/null; then
    sh tests/cmake.sh "$room/installed" "$room/cmake"
else
    left_out="$left_out CMake (not installed);"
fi
if command -v c++ > /dev/null; then
    echo '#include <simd_json.h>' | c++ -x c++ -Wall -Wextra -Werror -fsyntax-only -Iinclude -
fi

# The compiler warns of a null pointer where there must be none.
if echo '#include <simd_json.h>
int main(void) { return simd_json_check("", 0, 0, 0); }' | cc -x c -Wall -Werror -fsyntax-only -Iinclude - 2> /dev/null; then
    echo "a null place is not warned of"
    exit 1
fi

[ -z "$left_out" ] || echo "tests/c.sh: left out:${left_out%;}"
