#!/bin/sh
# Runs what README.md and docs/PROGRAMS.md show after `$ ` with the programs that the gate has built, and compares what is printed with
# what those pages say; runs the rows of CONTRIBUTING.md, whose other commands prove, and must be there; looks for the code of
# docs/INSTALL.md and docs/READING.md in tests and programs; follows links; and asks what bash completes. Silent where all is well, else
# status 1. The other commands are those of `make test`, install.sh, jq.sh and engines.sh.
set -u
top=$(cd "$(dirname "$0")/.." && pwd)
room=$(mktemp -d) || exit 1
trap 'rm -rf "$room"' EXIT
mkdir "$room/build"
ln -s "$top/examples" "$room/examples"
for program in jtape_main:jtape jcheck_main:jcheck jpick_main:jpick log_report_main:log_report; do
    built=$top/crates/${program%:*}/out/${program%:*}
    [ -x "$built" ] || { echo "$built is not there: run make test" >&2; exit 1; }
    ln -s "$built" "$room/build/${program#*:}"
done
different=0

# Each command prints itself, then what it writes to standard output and standard error, as on a terminal. Its status is that of the
# next `$?`.
for page in README.md docs/PROGRAMS.md; do
    awk '/^```/ { inside = !inside; shown = 0; next } inside && /^\$ / { shown = 1 } shown' "$top/$page" > "$room/wanted"
    awk '/^\$ / { print "s=$?; cat <<\\END\n" $0 "\nEND\n{ (exit $s); " substr($0, 3) "; } 2>&1; s=$?; (exit $s)" }' \
        "$room/wanted" > "$room/script"
    (cd "$room" && PATH=$room/build:$PATH sh script) > "$room/found" 2>&1
    diff -U 1 "$room/wanted" "$room/found" || different=1
done

grep -E '^(parse|indexes)[:0-9]* .* => ' "$top/CONTRIBUTING.md" > "$room/rows"
"$top/crates/simd_json_rows/out/simd_json_rows" < "$room/rows" | diff -U 0 "$room/rows" - || different=1

# Completion in bash knows the modes of jtape, and each option that a program's help prints; so does its manual, in the list and, but
# for help and version, in the synopsis.
for program in jcheck jpick log_report; do
    "$room/build/$program" --help | grep -oE -- '^ +(-[a-zA-Z], )?--[a-z-]+' | sed "s/^ */$program /" >> "$room/helped"
    sed -nE "s/^[.]It Fl (([a-zA-Z]) , Fl )?(-[a-z-]+).*/$program -\2, -\3/p" "$top/man/$program.1" |
        sed 's/ -,//' >> "$room/listed"
    awk -v program="$program" '/^[.]Op Fl/ {
        for (i = 3; i <= NF && $i != "Ar"; i++)
            if ($i ~ /^-/) print program, "-" $i
            else for (at = 1; at <= length($i) && $i != "|"; at++) print program, "-" substr($i, at, 1)
    }' "$top/man/$program.1" >> "$room/synopses"
done
sort "$room/listed" > "$room/found" && sort "$room/helped" | diff -U 0 - "$room/found" || different=1
sort "$room/synopses" > "$room/found"
grep -vE -- '--(help|version)$' "$room/helped" | sed 's/, .*//' | sort | diff -U 0 - "$room/found" || different=1
sed 's/ -[a-zA-Z],//' "$room/helped" | sort > "$room/options"
# In a manual a word between quotes loses them, unless they are written otherwise.
grep -nE '^[.](Dl|D1|Ql) .* "' "$top"/man/*.1 && different=1
bash -c '. "$1"
    compopt() { files="no file"; }
    # Completes the last of these words.
    completed() {
        files=files COMP_WORDS=("$@") COMP_CWORD=$(($# - 1))
        _simd_json "$1" "${!#}" "${COMP_WORDS[COMP_CWORD - 1]}"
    }
    for program in jcheck jpick log_report; do
        completed $program --
        printf "$program %s\n" "${COMPREPLY[@]}"
    done
    completed jtape "" && printf "jtape %s\n" "${COMPREPLY[@]}"
    completed jcheck --color = a && echo "--color=${COMPREPLY[*]}"
    for words in "jtape tape l" "jtape tape < l" "jpick --depth 1" "jpick --where = @" "log_report --and k" "log_report --key k" "log_report k l" "jcheck -- -"; do
        completed $words
        echo "$words: ${COMPREPLY[*]:-$files}"
    done' - \
    "$top/completions/simd_json.bash" > "$room/completed"
{
    cat "$room/options"
    sed -n 's/^[.]It Cm /jtape /p' "$top/man/jtape.1"
    cat << 'END'
--color=auto always
jtape tape l: no file
jtape tape < l: files
jpick --depth 1: no file
jpick --where = @: no file
log_report --and k: no file
log_report --key k: no file
log_report k l: files
jcheck -- -: files
END
} | diff -U 0 - "$room/completed" || different=1

# Commands of rt and make, scripts and files that these pages name.
rt help > "$room/help" 2>&1
(cd "$top" && cat README.md CONTRIBUTING.md docs/*.md) > "$room/pages"
# shellcheck disable=SC2016
grep -oE '(^|`)(rt|make|sh) [a-z][a-z/_.-]*|`crates/simd_json[a-z_/]*[.]rt' "$room/pages" | tr -d '`' | sort -u |
    while read -r program name; do
        case $program in
            rt) grep -qE "rt ([a-z]+[|])*$name( |[|]|\$)" "$room/help" ;;
            make) grep -qE "^$name:" "$top/Makefile" ;;
            sh) [ -f "$top/$name" ] ;;
            *) [ -f "$top/$program" ] ;;
        esac || echo "is not there: $program $name"
    done > "$room/absent"
[ ! -s "$room/absent" ] || { cat "$room/absent"; different=1; }
(cd "$top" && sh tests/links.sh ./*.md docs/*.md bench/HISTORY.md examples/README.md bindings/rust/README.md python/README.md) || different=1

# A paragraph of code is one line, without comments and imports. The program of the installation is run by install.sh.
lines() { sed 's/^ *//; /^\/\//d; /^use /d; s/pub(super) //g; s/^pub fn /fn /' | awk -v RS= '{ gsub(/\n/, " "); print }'; }
(cd "$top" && find crates -path '*/src/*tests/*.rt' -o -path '*/src/main.rt' -o -path '*/programs/src/command_line.rt' | xargs cat) | lines > "$room/code"
for page in docs/INSTALL.md docs/READING.md; do
    awk '/^```rust/ { inside = 1; next } /^```/ { inside = 0; print "" } inside' "$top/$page" |
        sed '/^\/\/! Prints/,/^}/d' | lines > "$room/blocks"
    awk 'NR == FNR { all = all $0 " "; next } !index(all, $0) { print "in no test or program: " $0; wrong = 1 } END { exit wrong }' \
        "$room/code" "$room/blocks" || different=1
done
exit "$different"
