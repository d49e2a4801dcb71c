#!/bin/sh
# deb.sh PACKAGE.deb: what lintian says of the Debian package; and in an empty Debian it is installed by apt, its programs, manual pages,
# completion, pkg-config and CMake are tried, and after a purge each file is as before. Silent where all is well but for a line of what was
# left out; else it says what differs, and ends with status 1.
set -eu
package=$(realpath "$1")
top=$(cd "$(dirname "$0")/.." && pwd)
name=simd-json-proved
left_out=
wrong() { echo "$1"; exit 1; }

if command -v lintian > /dev/null; then
    tags=$(lintian --allow-root --fail-on none --tag-display-limit 0 "$package" 2>&1)
    [ -z "$tags" ] || wrong "$tags"
else
    left_out="$left_out lintian (not installed);"
fi

if [ "$(id -u)" != 0 ] || ! command -v mmdebstrap > /dev/null; then
    echo "tests/deb.sh: left out:$left_out installation (not root, or no mmdebstrap)"
    exit 0
fi
room=$(mktemp -d)
trap 'rm -rf "$room"' EXIT
root=$room/root
if ! mmdebstrap --quiet --variant=apt --include=bash-completion,man-db,pkg-config,gcc,libc6-dev,cmake,make bookworm "$root" > "$room/log" 2>&1; then
    echo "tests/deb.sh: left out:$left_out installation (mmdebstrap: $(tail -n 1 "$room/log"))"
    exit 0
fi
# Manual pages are installed, which small images leave out.
rm -f "$root/etc/dpkg/dpkg.cfg.d/docker" "$root"/etc/dpkg/dpkg.cfg.d/*mmdebstrap*
inside() { chroot "$root" env -i PATH=/usr/sbin:/usr/bin:/sbin:/bin HOME=/root LC_ALL=C.UTF-8 DEBIAN_FRONTEND=noninteractive "$@"; }
files() { (cd "$root" && find . -path ./proc -prune -o -path ./sys -prune -o -path ./var -prune -o -path ./tmp -prune -o ! -name 'ld.so.c*' -print | LC_ALL=C sort); }
# prints TEXT COMMAND..: what a command must print there.
prints() {
    wanted=$1
    shift
    printed=$(inside "$@" 2>&1) || wrong "$*: status $?, after '$printed'"
    [ "$printed" = "$wanted" ] || wrong "$*: '$printed', not '$wanted'"
}

files > "$room/before"
cp "$package" "$root/tmp/package.deb"
inside apt-get install -y -q /tmp/package.deb > "$room/log" 2>&1 || { tail -n 20 "$room/log"; exit 1; }
prints 7 sh -c "echo '{\"a\":7}' | jpick -r /a"
prints '' sh -c "echo '{\"a\":7}' | jcheck"
prints 'complete -o default -F _simd_json jpick' bash -c '. /usr/share/bash-completion/bash_completion; _completion_loader jpick; complete -p jpick'
for page in jpick jcheck jtape log_report simd_json; do
    inside man "$page" | grep -q "$page" || wrong "man $page: not found"
done
mkdir -p "$root/tmp/top/tests" "$root/tmp/top/examples"
cp "$top/tests/cmake.sh" "$root/tmp/top/tests/"
cp -R "$top/examples/c" "$root/tmp/top/examples/"
# shellcheck disable=SC2016
prints 42 sh -c 'cd /tmp && cc top/examples/c/answer.c $(pkg-config --cflags --libs simd_json) -o answer && ./answer'
prints '' sh /tmp/top/tests/cmake.sh /usr /tmp/cmake
inside apt-get purge -y -q "$name" > "$room/log" 2>&1 || { tail -n 20 "$room/log"; exit 1; }
files | diff "$room/before" - || wrong "a purge leaves files, or takes others"
[ -z "$left_out" ] || echo "tests/deb.sh: left out:${left_out%;}"
