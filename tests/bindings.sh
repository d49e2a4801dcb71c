#!/bin/sh
# The wrapper for C++, the package for Python and the crate for Rust, each over the library that
# `make library` builds: their tests, a part of them under valgrind too, and those of C++ and Python
# under the sanitizers of addresses and of undefined behaviour. Silent where all is well but for a
# line of what was left out; else it says what differs, and ends with status 1.
set -eu
top=$(cd "$(dirname "$0")/.." && pwd)
cd "$top"
room=$(mktemp -d)
trap 'rm -rf "$room"' EXIT
left_out=

# run COMMAND..: its output is shown only where it fails.
run() {
    "$@" > "$room/log" 2>&1 || { echo "failed: $*"; tail -n 40 "$room/log"; exit 1; }
}

run make -s library
check='valgrind -q --leak-check=full --error-exitcode=1'
command -v valgrind > /dev/null || { left_out="$left_out valgrind (not installed);"; check=; }

# by_wrapper OPTION..: the programs that call the wrapper for C++, built so, each run by $by.
by_wrapper() {
    for program in wrapper owners; do
        run c++ -Wall -Wextra -Werror -pedantic -Iinclude "$@" tests/c/$program.cpp \
            build/libsimd_json.a -o "$room/$program"
        # shellcheck disable=SC2086
        run $by "$room/$program"
    done
}

# rejects CASE NAMED: that part of tests/c/must_not_compile.cpp must not compile; the first error names why.
rejects() {
    if LC_ALL=C c++ -std=gnu++17 -fsyntax-only -Iinclude "-DCASE=$1" tests/c/must_not_compile.cpp \
        2> "$room/log"; then
        echo "tests/c/must_not_compile.cpp compiles with -DCASE=$1"
        exit 1
    fi
    grep -m1 'error: ' "$room/log" | grep -q "$2" && return
    echo "tests/c/must_not_compile.cpp with -DCASE=$1: the first error does not name $2"
    cat "$room/log"
    exit 1
}

# native_module FOLDER COMPILER-OPTION..: the package there, its module built by these.
native_module() {
    folder=$1
    shift
    mkdir -p "$folder/simd_json"
    cp python/simd_json/* "$folder/simd_json/"
    run cc -fPIC -shared -fvisibility=hidden "-I$include" -Iinclude "$@" \
        -o "$folder/simd_json/_native.abi3.so"
}

sanitized='-O1 -g -fsanitize=address,undefined -fno-sanitize-recover=all'
# shellcheck disable=SC2086
if ! echo 'int main(void) { return 0; }' | cc $sanitized -x c - -o "$room/trial" 2> /dev/null; then
    left_out="$left_out the sanitizers (not of this compiler);"
    sanitized=
fi

if command -v c++ > /dev/null; then
    by=$check
    for standard in 17 20; do
        for build in -UNDEBUG -DNDEBUG; do by_wrapper -std=c++$standard -O1 $build; done
    done
    by=
    # shellcheck disable=SC2086
    [ -z "$sanitized" ] || by_wrapper -std=c++20 $sanitized
    for compiler in c++ clang++; do
        command -v "$compiler" > /dev/null || continue
        run "$compiler" -std=c++17 -fsyntax-only -Wall -Wextra -Werror -Iinclude -DCASE=0 tests/c/must_not_compile.cpp
    done
    for case in 1 2 3 11 12; do rejects $case 'deleted.*parse'; done
    for case in 13 14; do rejects $case 'non-const lvalue reference'; done
    rejects 15 'binding reference.*qualifier'
    for case in 4 5; do rejects $case 'deleted.*root'; done
    for case in 6 7; do rejects $case 'deleted.*element'; done
    rejects 8 'operator\[\]'
    rejects 9 'deleted.*pointer'
    rejects 10 'operator=='
    for case in 16 17 22; do rejects $case 'call to.*get'; done
    rejects 18 'conversion from.*parser'
    rejects 19 'deleted.*parse_in_place'
    rejects 20 'deleted.*operator\[\]'
    rejects 21 'operator\[\]'
    for case in 23 24; do rejects $case 'deleted.*get'; done
    rejects 25 'call to.*fields'
    echo '#include <simd_json.hpp>' > "$room/old.cpp"
    for option in -std=c++14 -fno-exceptions; do
        if c++ "$option" -fsyntax-only -Iinclude "$room/old.cpp" 2> "$room/log" ||
            ! grep -m1 '#error' "$room/log" | grep -q 'use -std=c++17, and not -fno-exceptions'; then
            echo "simd_json.hpp does not say what it needs, with $option"
            exit 1
        fi
    done
else
    left_out="$left_out C++ (no c++);"
fi

if python3 -c 'import sysconfig, os; raise SystemExit(not os.path.exists(sysconfig.get_paths()["include"] + "/Python.h"))' 2> /dev/null; then
    # Of a folder that is not ours: nothing is written there.
    mkdir "$room/library"
    cp build/libsimd_json.a "$room/library/"
    SIMD_JSON_LIB_DIR="$room/library" run python3 -B python/backend.py "$room"
    [ "$(ls "$room/library")" = libsimd_json.a ] || { echo "python/backend.py: it writes to the library's folder"; exit 1; }
    run python3 -m zipfile -e "$room"/simd_json-*.whl "$room/site"
    grep -q '^# simd_json for Python$' "$room/site"/simd_json-*.dist-info/METADATA || { echo "METADATA lacks README.md"; exit 1; }
    # Each Python that there is, in an environment of its own.
    for python in python3.10 python3.11 python3.12 python3.13 "${PYENV_ROOT:-$HOME/.pyenv}"/versions/3.1[0-3].*/bin/python3; do
        "$python" -c 'import venv, ensurepip' 2> /dev/null || continue
        rm -rf "$room/fresh"
        run "$python" -m venv "$room/fresh"
        run "$room/fresh/bin/pip" install -q --no-index "$room"/simd_json-*.whl
        MUTANTS=2000 ROUNDS=400 run "$room/fresh/bin/python" -m unittest discover -s python/tests
    done
    export PYTHONPATH="$room/site" PYTHONDONTWRITEBYTECODE=1
    run python3 -m unittest discover -s python/tests
    # What README shows of it.
    sed '/^```/d' README.md > "$room/README.txt"
    run python3 -m doctest "$room/README.txt"
    include=$(python3 -c 'import sysconfig; print(sysconfig.get_paths()["include"])')
    # The same with a module whose allocations fail in turn.
    native_module "$room/failing" -O1 python/native.c python/tests/failing.c build/libsimd_json.a \
        -Wl,--wrap=malloc,--wrap=realloc,--wrap=free
    run env "PYTHONPATH=$room/failing" python3 python/tests/test_memory.py
    # Python in a program, with other interpreters beside the first.
    config=$(python3 -c 'import sysconfig; print(sysconfig.get_config_var("BINDIR") + "/python3-config")')
    # shellcheck disable=SC2046
    if [ -x "$config" ] && cc -Wall -Wextra -Werror "-I$include" python/tests/interpreters.c \
        -o "$room/interpreters" $("$config" --embed --ldflags) 2> "$room/log"; then
        run "$room/interpreters"
    else
        left_out="$left_out Python in a program (no library of it);"
    fi
    # Where the processor has neither level of the release.
    echo 'void *begin_v2(void) { __builtin_trap(); } void *begin_v3(void) { __builtin_trap(); }' \
        > "$room/levels.c"
    native_module "$room/old" '-D__builtin_cpu_supports(level)=0' python/start.c "$room/levels.c"
    if PYTHONPATH="$room/old" python3 -c 'import simd_json' 2> "$room/log" ||
        ! grep -q '^ImportError: .* x86-64-v2 ' "$room/log"; then
        echo "python/start.c: no ImportError where the processor is too old"
        cat "$room/log"
        exit 1
    fi
    # Where the module alone has the sanitizers, they must be loaded before Python; they watch its
    # objects if these are of malloc.
    asan=$(cc -print-file-name=libasan.so) ubsan=$(cc -print-file-name=libubsan.so)
    if [ -n "$sanitized" ] && [ -e "$asan" ] && [ -e "$ubsan" ]; then
        # shellcheck disable=SC2086
        native_module "$room/sanitized" $sanitized python/native.c build/libsimd_json.a
        for tests in "ROUNDS=20000 test_hostile" "MUTANTS=10000 test_simd_json"; do
            run env "PYTHONPATH=$room/sanitized" "LD_PRELOAD=$asan $ubsan" PYTHONMALLOC=malloc \
                ASAN_OPTIONS=detect_leaks=0 "${tests% *}" python3 "python/tests/${tests#* }.py"
        done
    fi
    if [ -n "$check" ]; then
        # The system's Python, if it can: of one that a script starts, valgrind would watch the shell.
        python=/usr/bin/python3
        "$python" -c 'import simd_json' 2> /dev/null || python=$(python3 -c 'import sys; print(sys.executable)')
        PYTHONMALLOC=malloc MUTANTS=300 run valgrind -q --error-exitcode=1 "$python" python/tests/test_simd_json.py
        PYTHONMALLOC=malloc ROUNDS=300 run valgrind -q --error-exitcode=1 "$python" \
            python/tests/test_hostile.py
    fi
else
    left_out="$left_out Python (no python3 with its headers);"
fi

# A copy of the crate, whose manifest may change, beside the rows and the header that its tests read.
if command -v cargo > /dev/null; then
    mkdir "$room/bindings"
    cp -R bindings/rust "$room/bindings/"
    rm -f "$room/bindings/rust/Cargo.lock"
    ln -s "$top/tests" "$room/tests"
    ln -s "$top/include" "$room/include"
    cd "$room/bindings/rust"
    no_serde=$(sh "$top/tests/serde.sh" "$room" .)
    left_out="$left_out$no_serde"
    export CARGO_TARGET_DIR="$room/target" SIMD_JSON_LIB_DIR="$top/build"
    run cargo test --offline -q
    if [ -z "$no_serde" ]; then
        run cargo test --offline -q --no-default-features --tests
        run env RUSTDOCFLAGS='-D warnings' cargo doc --offline -q --no-deps
        if cargo clippy --version > /dev/null 2>&1; then
            run cargo clippy --offline -q --all-targets -- -D warnings
            run cargo clippy --offline -q --no-default-features -- -D warnings
        else
            left_out="$left_out clippy (not installed);"
        fi
    fi
    # What the test harness still holds in the end is no leak of the crate's.
    [ -z "$check" ] || CARGO_TARGET_X86_64_UNKNOWN_LINUX_GNU_RUNNER="$check --errors-for-leak-kinds=definite" MUTANTS=500 \
        run cargo test --offline -q --tests
    # The library of the folder that is named, in a workspace also by a path from the crate on, and no other.
    printf '[workspace]\nmembers = ["bindings/rust"]\n' > "$room/Cargo.toml"
    mkdir "$room/named library"
    ln -s "$top/build/libsimd_json.a" "$room/named library/"
    ln -s "$top/build" "$room/build"
    run env "SIMD_JSON_LIB_DIR=../../named library" cargo build --offline -q
    if SIMD_JSON_LIB_DIR=../../none cargo build --offline -q 2> "$room/log" ||
        ! grep -q "no libsimd_json.a in SIMD_JSON_LIB_DIR, $PWD/../../none" "$room/log"; then
        echo "bindings/rust/build.rs: a wrong SIMD_JSON_LIB_DIR is not named"
        cat "$room/log"
        exit 1
    fi
    cd "$top"
else
    left_out="$left_out Rust (no cargo);"
fi

[ -z "$left_out" ] || echo "tests/bindings.sh: left out:${left_out%;}"
