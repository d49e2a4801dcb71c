#!/bin/sh
# Runs docs/PROGRAMS.md's commands beside jq. The inputs of its table of differences go through both programs, and what each prints must be
# what the table says. The two commands of each task must print the same of a small log. jq is left out where its version is not
# the table's. Silent where all is well, but for what was left out; else status 1.
#
# usage: sh tests/jq.sh [FOLDER]    with log.json and log.jsonl in FOLDER it prints the seconds of each task's commands instead,
#                                    and fails where ours is not five times as fast
set -u
top=$(cd "$(dirname "$0")/.." && pwd)
room=$(mktemp -d) || exit 1
trap 'rm -rf "$room"' EXIT
mkdir "$room/bin"
for program in jtape_main:jtape jcheck_main:jcheck jpick_main:jpick log_report_main:log_report; do
    built=$top/crates/${program%:*}/out/${program%:*}
    [ -x "$built" ] || { echo "$built is not there: run make test" >&2; exit 1; }
    ln -s "$built" "$room/bin/${program#*:}"
done
PATH=$room/bin:$PATH

different=0
wrong() { different=1; printf '%s: %s\n' "$1" "$2"; }

# The tasks: our command and that of jq.
awk -F ' [|] ' '/^[|] to [|]/ { inside = 1; next } inside && /^$/ { exit } inside && !/^[|]---/ {
    split($2, ours, "`"); split($3, theirs, "`"); gsub(/\\[|]/, "|", theirs[2]); print ours[2] "\t" theirs[2]
}' "$top/docs/PROGRAMS.md" > "$room/tasks"
[ "$(wc -l < "$room/tasks")" -eq 13 ] || wrong "docs/PROGRAMS.md's tasks, wanted 13" "$(wc -l < "$room/tasks")"

if [ $# -gt 0 ]; then
    cd "$1" || exit 1
    while IFS='	' read -r ours theirs; do
        times=
        for command in "$ours" "$theirs"; do
            begin=$(date +%s.%N)
            sh -c "$command" > "$room/out"
            times="$times $begin $(date +%s.%N)"
        done
        echo "$times" | awk '{ printf "%.2f %.2f ", $2 - $1, $4 - $3; exit (5 * ($2 - $1) > $4 - $3) }' || wrong 'not five times as fast' "$ours"
        printf '%s\n' "$ours"
    done < "$room/tasks"
    exit "$different"
fi

# The rows of differences, between backticks: the version of jq first, then an input, which is a format of printf, and what each
# program prints.
# shellcheck disable=SC2016
sed -n '/^| input | `jq/,/^$/ { s/.*, \([0-9.]*\) |.*/\1/p; s/^| `\(.*\)`[^|]* | `\(.*\)` | `\(.*\)` |$/\1|\2|\3/p; }' \
    "$top/docs/PROGRAMS.md" > "$room/rows"
{
    read -r version
    [ "$(jq --version 2> /dev/null)" = "jq-$version" ] || { echo "left out: jq $version, which is not installed"; version=; }
    rows=0
    while IFS='|' read -r input by_jq by_us; do
        rows=$((rows + 1))
        # shellcheck disable=SC2059
        printf "$input" > "$room/in"
        [ -z "$version" ] || [ "$(jq -c . < "$room/in" 2>&1)" = "$by_jq" ] || wrong "jq prints otherwise" "$input"
        [ "$(jtape compact < "$room/in" 2>&1)" = "$by_us" ] || wrong "jtape prints otherwise" "$input"
    done
    [ "$rows" -eq 5 ] || wrong "docs/PROGRAMS.md's rows beside jq, wanted 5" "$rows"
} < "$room/rows"

cd "$room" || exit 1
cat > log.jsonl << 'END'
{"level":"info","status":200,"path":"/a","text":"caf\u00e9 \"au lait\"","more":[1,{"b":[]},{}]}
{"level":"error","status":500,"path":"/a\tb","text":"","more":null}
{"status":200,"path":"/c\\d","level":"info","user":{"id":12345678901}}
{"level":"info","path":"/é","status":404}
{"level":"error","status":200,"path":"/","retry":true}
{"level":"debug","status":404,"path":"/a"}
END
{ printf '[' && paste -sd, log.jsonl && printf ']'; } > log.json
while IFS='	' read -r ours theirs; do
    sh -c "$ours" > "$room/ours" 2>&1 || wrong "status $?" "$ours"
    [ -s "$room/ours" ] || case $ours in jcheck*) ;; *) wrong "nothing is printed" "$ours" ;; esac
    [ -n "$version" ] || continue
    # Counts are to the right of some spaces.
    case $ours in log_report*) theirs="$theirs | sed 's/^ *//'" ;; esac
    sh -c "$theirs" > "$room/theirs" 2>&1
    cmp -s "$room/ours" "$room/theirs" || wrong "not what jq prints" "$ours"
done < "$room/tasks"
exit "$different"
