#!/bin/sh
# Runs jcheck, as the gate has built it, on a text of 64 MB with its error at the end, and compares line, column and byte with
# what head, tail and wc count. Then lines as they arrive, statuses, and a closed pipe. Silent where all is as it must be, else
# with status 1.
#
# usage: sh tests/places.sh [PROGRAM]
set -u
program=${1:-$(dirname "$0")/../crates/jcheck_main/out/jcheck_main}
[ -x "$program" ] || { echo "$program is not there: run make test" >&2; exit 1; }
room=$(mktemp -d) || exit 1
trap 'rm -rf "$room"' EXIT
different=0

# wanted NAME STATUS OUT: what the last run must have left; OUT is what standard output begins with.
wanted() {
    begins=$(head -c "${#3}" "$room/out")
    [ "$status" = "$2" ] && [ "$begins" = "$3" ] && return
    different=1
    echo "$1: status $status, wanted $2; standard output begins: $(head -c 200 "$room/out")"
}

# A row with characters of one to four bytes, and 64 MB of such rows in an array.
row='{"name":"éèà€😀","text":"0123456789\u00e9 \"quoted\"","numbers":[1,-2,3.5e10],"more":null}'
{
    echo '['
    yes "$row," | head -c 67108864 | sed '$d'
    printf '%s\n' "$row"
} > "$room/rows"
lines=$(wc -l < "$room/rows")
bytes=$(wc -c < "$room/rows")

# check TEXT COLUMN OFFSET MESSAGE: the text after the rows, and where in it the error is.
check() {
    { cat "$room/rows"; printf "$1"; } > "$room/in"
    "$program" - < "$room/in" > "$room/out" 2> "$room/err"
    status=$?
    wanted "after 64 MB: $1" 1 "-:$((lines + 1)):$2: $4 at byte $((bytes + $3))]"
}

check ', "é€" 1]' 8 10 'expected `,` or `]` after an element, found `1` [ExpectedArrayContent'
check ',"€", nul]' 7 8 'expected `null` [ExpectedNull'
check ', "é' 3 2 'the string that begins here has no end [Syntax'
check ', "é\t"]' 5 5 "a tab in the string that begins at $((lines + 1)):3 [Syntax"
check ', "é\377"]' 5 5 'byte 255 begins no UTF-8 character [InvalidUtf8'

{ cat "$room/rows"; printf ']'; } > "$room/in"
"$program" "$room/in" > "$room/out" 2> "$room/err"
status=$?
wanted 'a document of 64 MB' 0 ''

# A line is reported before the next one comes, and of 64 MB of lines few are kept: 20 MB of memory are enough.
mkfifo "$room/lines"
"$program" --lines "$room/lines" > "$room/out" 2> "$room/err" &
running=$!
exec 3<> "$room/lines"
printf '1\n[1,]\n"a' >&3
looks=0
until [ -s "$room/out" ] || [ $looks = 600 ]; do # a minute, where the machine is loaded
    sleep 0.1
    looks=$((looks + 1))
done
status=1
wanted 'a line before the next one' 1 "$room/lines:2:4: expected a value"
printf '\n' >&3
exec 3>&-
wait "$running"
status=$?
wanted 'the last line' 1 "$room/lines:2:4: expected a value, found \`]\` [InternalError at byte 5]
[1,]
   ^
$room/lines:3:1: the string that begins here has no end [Syntax at byte 7]
\"a
^"
tail -n +2 "$room/rows" | sed 's/,$//' > "$room/in"
(ulimit -v 20000 && "$program" --lines "$room/in") > "$room/out" 2> "$room/err"
status=$?
wanted 'lines of 64 MB' 0 ''

# A file that can't be read does not keep the others from being checked.
printf '[1,]' > "$room/rejected"
"$program" "$room/none" "$room" "$room/rejected" > "$room/out" 2> "$room/err"
status=$?
wanted 'files that can not be read' 3 "$room/rejected:1:4: expected a value"
grep -q "^jcheck: $room/none: No such file" "$room/err" && grep -q "^jcheck: $room: Is a directory" "$room/err" || {
    different=1
    echo "standard error lacks the reasons:"
    cat "$room/err"
}

# Where there is one column, the place itself is shown.
COLUMNS=1 "$program" "$room/rejected" > "$room/out" 2> "$room/err"
status=$?
wanted 'one column' 1 "$room/rejected:1:4: expected a value, found \`]\` [InternalError at byte 3]
]
^"

for words in '--depth' '--depth x' '--depth -1' '--tree'; do
    "$program" $words > "$room/out" 2> "$room/err" < /dev/null
    status=$?
    wanted "the arguments $words" 2 ''
    [ -s "$room/err" ] || { different=1; echo "no reason for the arguments $words"; }
done
for words in --help --version; do
    "$program" $words > "$room/out" 2> "$room/err"
    status=$?
    wanted "$words" 0 ''
    [ -s "$room/out" ] || { different=1; echo "nothing printed for $words"; }
done

# A closed pipe ends it quietly.
yes '[1,]' | head -n 100000 > "$room/in"
{ "$program" --lines "$room/in" 2> "$room/err"; echo $? > "$room/status"; } | head -n 1 > "$room/out"
status=$(cat "$room/status")
wanted 'a closed pipe' 1 "$room/in:1:4: expected a value"
[ -s "$room/err" ] && { different=1; echo 'a closed pipe is not quiet'; cat "$room/err"; }

# The caret is red where that is asked for; a file is no terminal.
for when in always auto never; do
    printf '[1,]' | "$program" --color "$when" > "$room/out" 2> "$room/err"
    status=$?
    caret='^'
    [ "$when" = always ] && caret=$(printf '\033[1;31m^\033[m')
    wanted "a caret, $when" 1 "$(printf -- '-:1:4: expected a value, found `]` [InternalError at byte 3]\n[1,]\n   %s\n' "$caret")"
done

exit $different
