#!/bin/sh
# cmake.sh PREFIX ROOM: a project in the new folder ROOM finds simd_json under PREFIX by find_package, also by its version and through
# a link to its folder, and with both libraries what it builds prints 42. No other version is found. Silent where all is well, else
# status 1.
set -eu
prefix=$(readlink -f "$1")
room=$2
mkdir "$room" "$room/linked"
ln -s "$prefix/lib" "$room/linked/lib"
cp "$(dirname "$0")/../examples/c/answer.c" "$room/"
cat > "$room/CMakeLists.txt" << 'END'
cmake_minimum_required(VERSION 3.13)
project(answer C)
find_package(simd_json ${WANTED} CONFIG REQUIRED)
add_executable(shared answer.c)
target_link_libraries(shared simd_json::simd_json)
add_executable(static answer.c)
target_link_libraries(static simd_json::static)
END

# configures PREFIX WANTED: the project is configured with what is found there, of any version where none is wanted.
configures() {
    rm -rf "$room/build"
    cmake -S "$room" -B "$room/build" "-DCMAKE_PREFIX_PATH=$1" "-DWANTED=$2" > "$room/log" 2>&1
}
# builds PREFIX WANTED: so configured, it is built and both programs print 42.
builds() {
    { configures "$1" "$2" && cmake --build "$room/build" > "$room/log" 2>&1; } || { cat "$room/log"; exit 1; }
    for program in shared static; do
        [ "$("$room/build/$program")" = 42 ] || { echo "CMake, $program: not 42"; exit 1; }
    done
}

version=$(sed -n 's/^#define SIMD_JSON_VERSION_[A-Z]* //p' "$prefix/include/simd_json.h" | paste -sd.)
major=${version%%.*} minor=${version#*.} minor=${minor%%.*}
builds "$prefix" ''
builds "$room/linked" ''
builds "$prefix" "$major.$minor"
builds "$prefix" "$version;EXACT"
for other in "$major.$((minor + 1))" "$major.${minor}0" "$((major + 1))" "$major.$minor.999"; do
    ! configures "$prefix" "$other" || { echo "CMake finds $version where $other is wanted"; exit 1; }
    grep -q "requested version" "$room/log" || { cat "$room/log"; exit 1; }
done
