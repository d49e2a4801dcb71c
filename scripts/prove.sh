#!/bin/sh
# prove.sh CRATE COMMAND..: runs a command of `rt` over a crate, and prints a line when its proof begins, with its number of
# functions, and one when it ends, with the time. Where there is nothing to prove it prints neither. All that `rt` prints is in
# build/log/CRATE; where `rt` fails the end of that follows, and the status is 1.
#
# `rt` locks a crate and those below it, so two that depend on one crate would wait for each other. So each is proved in a
# folder of its own, with links to what is proved below it. Its out/ is moved there, and back in the end.
set -u
crate=$1
shift
cd "$(dirname "$0")/.." || exit 1
. scripts/crates.sh
lane=$PWD/build/lane/$crate
log=$PWD/build/log/$crate
begin=$(date +%s)

# As `rt` locks it: a check that runs in the crate's folder ends first, and one that begins meanwhile waits.
exec 9< "crates/$crate" && flock 9 || exit 1

leave() {
    if [ -d "$lane/crates/$crate/out" ]; then
        rm -rf "crates/$crate/out"
        mv "$lane/crates/$crate/out" "crates/$crate/out"
    fi
    rm -rf "$lane"
}
trap leave EXIT
trap 'exit 1' INT TERM

# What a run that was killed left.
leave
rm -f "$log.failed"
mkdir -p build/log "$lane/crates"

# Links, where the file system has them, else copies.
linked() {
    cp -al "$1" "$2" 2> /dev/null || { rm -rf "$2" && cp -a "$1" "$2"; }
}

for name in $(below "$crate") "$crate"; do
    [ ! -d "$lane/crates/$name" ] || continue
    grep -E "^${name}[ :]" crates.txt >> "$lane/crates.txt"
    mkdir -p "$lane/crates/$name"
    for part in src specs proofs; do
        [ ! -e "crates/$name/$part" ] || linked "crates/$name/$part" "$lane/crates/$name/$part" || exit 1
    done
    if [ "$name" != "$crate" ] && [ -d "crates/$name/out/rlib" ]; then
        mkdir "$lane/crates/$name/out"
        linked "crates/$name/out/rlib" "$lane/crates/$name/out/rlib" || exit 1
    fi
done
[ ! -d "crates/$crate/out" ] || mv "crates/$crate/out" "$lane/crates/$crate/out"

{ (cd "$lane/crates/$crate" && rt "$@") || touch "$log.failed"; } 2>&1 | tee "$log" |
    sed -u -n "s/^so far: 0 of \([0-9]*\) functions.*/$crate: proving \1 functions/p"
if [ -e "$log.failed" ]; then
    echo "$crate: not proved; the end of build/log/$crate:" >&2
    tail -n 20 "$log" >&2
    exit 1
fi
if grep -q '^so far: 0 of' "$log"; then
    seconds=$(($(date +%s) - begin))
    echo "$crate: proved in $((seconds / 60)) min $((seconds % 60)) s"
fi
