#!/bin/sh
# Runs the programs that the gate has built, and compares standard output, standard error and status with what stands here,
# which was worked out by hand. Silent where all is as it must be; else it says what differs, and ends with status 1.
#
# usage: sh tests/statuses.sh [JTAPE [LOG_REPORT [JPICK [JCHECK]]]]
set -u
program=${1:-$(dirname "$0")/../crates/jtape_main/out/jtape_main}
log_report=${2:-$(dirname "$0")/../crates/log_report_main/out/log_report_main}
for built in "$program" "$log_report"; do
    [ -x "$built" ] || { echo "$built is not there: run make test" >&2; exit 1; }
done
room=$(mktemp -d) || exit 1
trap 'rm -rf "$room"' EXIT
different=0

# given INPUT ARGUMENTS..: runs the program on the input, which is a format of printf.
given() {
    printf "$1" > "$room/in"
    shift
    "$program" "$@" < "$room/in" > "$room/out" 2> "$room/err"
    status=$?
}

# wanted NAME STATUS OUT ERR: what the last run must have left; OUT and ERR are formats of printf.
wanted() {
    printf -- "$3" > "$room/wanted-out"
    printf -- "$4" > "$room/wanted-err"
    [ "$status" = "$2" ] && cmp -s "$room/out" "$room/wanted-out" && cmp -s "$room/err" "$room/wanted-err" && return
    different=1
    echo "$1: status $status, wanted $2"
    diff "$room/wanted-out" "$room/out" | sed 's/^/    standard output: /'
    diff "$room/wanted-err" "$room/err" | sed 's/^/    standard error: /'
}

usage='usage: jtape MODE [DEPTH]\n'

# Documents are printed.
given '{"a\\n":[true,null,-1,1.5]}' tape
wanted 'a document' 0 'Object 1 6\nString "a\\n"\nArray 4 4\nBool true\nNull\nI64 -1\nDecimal 1.5\n' ''
given '7' tape 007
wanted 'a depth with zeros in front' 0 'U64 7\n' ''
given '7' tape 0
wanted 'a scalar within depth 0' 0 'U64 7\n' ''
given '{"the_answer": 42}' positions
wanted 'positions' 0 '0\n1\n13\n15\n17\n' ''
given ' { "a" : [ 1 , {} ] } ' compact
wanted 'a compact text' 0 '{"a":[1,{}]}\n' ''
given '{"a":[1,{}]}' pretty 2
wanted 'a pretty text that is too deep' 1 '' "DepthLimitExceeded at character 8 ('{')\n"
given '{"a":[1,{}]}' pretty 3
wanted 'a pretty text within depth 3' 0 '{\n  "a": [\n    1,\n    {}\n  ]\n}\n' ''

# nested PAIRS KILOBYTES: a compact document of as many arrays with an object inside, each in the one before, is printed as it
# is with a stack of this size.
nested() {
    awk -v pairs="$1" 'BEGIN {
        for (i = 0; i < pairs; i++) printf "[{\"\":"
        printf "null"
        for (i = 0; i < pairs; i++) printf "}]"
        print ""
    }' > "$room/nested"
    env -i sh -c 'ulimit -s "$1" && exec "$2" compact "$3"' sh "$2" "$program" "$((2 * $1))" < "$room/nested" > "$room/out" 2> "$room/err"
    status=$?
    [ "$status" = 0 ] && cmp -s "$room/nested" "$room/out" && [ ! -s "$room/err" ] && return
    different=1
    echo "$1 pairs of containers: status $status, wanted 0 and what was given"
    sed 's/^/    standard error: /' "$room/err"
}

# Neither a parse nor printing recurses: four million containers are printed with the stack that a small document takes.
nested 2000000 256

# What is rejected is reported, and nothing is written.
for mode in tape positions compact pretty; do
    given '[1,]' "$mode"
    wanted "a comma too many, $mode" 1 '' "InternalError at character 3 (']')\n"
done
given '' tape
wanted 'empty input' 1 '' 'Eof at character 0\n'
given '[\377]' tape
wanted 'no UTF-8' 1 '' 'InvalidUtf8 at character 0\n'
given '[]' tape 0
wanted 'an array within depth 0' 1 '' "DepthLimitExceeded at character 0 ('[')\n"
given "$(printf '%01025d' 0 | tr 0 '[')" tape
wanted '1,025 brackets' 1 '' "DepthLimitExceeded at character 1024 ('[')\n"

# Of a stream of lines each that is rejected has a line, and the others are printed.
given '{"a": 1}\n\n[1,]\n 2 ' lines
wanted 'lines, one of them rejected' 1 '{"a":1}\n! InternalError at character 3 ('"']'"')\n2\n' ''
given '[ 1 ]\r\n \t\n\n{}\n' lines
wanted 'lines that are blank or documents' 0 '[1]\n{}\n' ''
given '' lines
wanted 'no line' 0 '' ''
given '7\n[]\n' lines 0
wanted 'lines within depth 0' 1 '7\n! DepthLimitExceeded at character 0 ('"'['"')\n' ''

# Arguments that are not understood, or can't be read.
given '1'
wanted 'no mode' 2 '' "$usage"
for mode in tree Tape '' position line; do
    given '1' "$mode"
    wanted "the mode '$mode'" 2 '' "$usage"
done
for depth in x +1 -1 '' ' 1' 18446744073709551616; do
    given '1' tape "$depth"
    wanted "the depth '$depth'" 2 '' "$usage"
done
given '1' tape 1 2
wanted 'a word too many' 2 '' "$usage"
given '1' tape "$(printf '\377')"
wanted 'an argument that is no UTF-8' 2 '' "$usage"

# Input that can't be read, and output that can't be written, in each mode.
for mode in tape positions compact pretty lines; do
    "$program" "$mode" < / > "$room/out" 2> "$room/err"
    status=$?
    wanted "a folder as input, $mode" 3 '' 'reading failed\n'
    "$program" "$mode" <&- > "$room/out" 2> "$room/err"
    status=$?
    wanted "closed input, $mode" 3 '' 'reading failed\n'
    : > "$room/out"
    echo '[1]' | "$program" "$mode" >&- 2> "$room/err"
    status=$?
    wanted "closed output, $mode" 3 '' 'writing failed\n'
    if [ "$mode" != lines ]; then
        echo '[1' | "$program" "$mode" >&- 2> "$room/err"
        status=$?
        wanted "a rejected document and closed output, $mode" 1 '' "Syntax at character 1 ('1')\n"
    fi
    if [ -w /dev/full ]; then
        echo '[1]' | "$program" "$mode" > /dev/full 2> "$room/err"
        status=$?
        wanted "a full disk, $mode" 3 '' 'writing failed\n'
    fi
done
# Who has closed the output has had enough of it: more is written than a pipe holds.
awk 'BEGIN { for (i = 0; i < 100000; i++) print "[12345]" }' > "$room/many"
{ "$program" lines < "$room/many" 2> "$room/err"; echo $? > "$room/status"; } | head -n 1 > "$room/out"
status=$(cat "$room/status")
wanted 'a closed pipe, lines' 3 '[12345]\n' ''
: > "$room/err"
echo '[1' | "$program" tape > "$room/out" 2>&-
status=$?
wanted 'a rejected document and closed standard error' 1 '' ''

# log_report counts by keys, and by JSON Pointers.
program=$log_report
given '{"level":"info"}\n{"level":"warn"}\n[1,]\n{"level":"info"}\n7\n' level
wanted 'a count by key' 1 '2 "info"\n1 -\n1 !\n1 "warn"\n' '-:3:4: expected a value, found `]` [InternalError]\n'
given '{"a":{"b/c":1}}\n{"a":[]}\n{"a":{"b/c":1}}' /a/b~1c
wanted 'a count by pointer' 0 '2 1\n1 -\n' ''
given '{"-n":1}' -- -n
wanted 'a key that begins with -' 0 '1 1\n' ''
given '{"a":"x","b":1}\n{"a":"x","b":1}\n{"a":"-"}\n[1,]' a --and /b
wanted 'a count by two values' 1 '2 "x"\t1\n1 !\n1 "-"\t-\n' '-:4:4: expected a value, found `]` [InternalError]\n'
given '{"a":"-"}\n{"a":"x\\ty"}\n{"a":null,"-b":[1]}\n[1,]' --tsv --and -b a
wanted 'a count as TSV' 1 '1\t\\!\n1\t-\t\\-\n1\tx\\ty\t\\-\n1\t\t[1]\n' '-:4:4: expected a value, found `]` [InternalError]\n'
given '{}\n123456\n12345678' --longest 7 level
wanted 'a line that is too long' 1 '2 -\n1 !\n' '-:3: longer than 7 bytes (--longest)\n'
given '{"a":1}\n{"a":2}\n{"a":1}\n{"a":3}\n' --values 1 a
wanted 'values without a count of their own' 0 '2 *\n2 1\n' \
    'log_report: lines under *: 2 (--values for more than 1 values; a row has at most 1024 bytes)\n'
given '' level
wanted 'no line to count' 0 '' ''

# said NAME STATUS WORDS: the last run must have ended with this status, and printed these words on standard output alone, if
# the status is 0, or on standard error alone.
said() {
    if [ "$2" = 0 ]; then set -- "$@" out err; else set -- "$@" err out; fi
    [ "$status" = "$2" ] && grep -qF -e "$3" "$room/$4" && [ ! -s "$room/$5" ] && return
    different=1
    echo "$1: status $status, wanted $2 and '$3'"
    sed 's/^/    /' "$room/out" "$room/err"
}

for word in --help -h; do
    given '' "$word"
    said "log_report $word" 0 '--longest <BYTES>'
done
for word in --version -V; do
    given '' "$word"
    wanted "log_report $word" 0 'log_report 0.4.0\n' ''
done
given '{}'
said 'no key' 2 'KEY|POINTER'
given '{}' --shortest level
said 'an option that there is not' 2 '--shortest'
for longest in x -1 '' 4294967296 +1 -0; do
    given '{}' "--longest=$longest" level
    said "log_report --longest=$longest" 2 '--longest <BYTES>'
done
for values in +1 -0; do
    given '{}' "--values=$values" level
    said "log_report --values=$values" 2 "invalid value '$values' for '--values <N>': invalid digit found in string"
done

# A JSON Pointer may be malformed, and what looks like another path is no key, but by --key.
for pointer in '/~' '/a/~2' '/~/0' '/~1~' '/~01~'; do
    given '{}' "$pointer"
    said "the pointer $pointer" 2 "invalid value '$pointer' for '<KEY|POINTER>': expected 0 or 1 after each ~"
    given '{}' level --and "$pointer"
    said "the pointer $pointer, by --and" 2 "invalid value '$pointer' for '<KEY|POINTER>': expected 0 or 1 after each ~"
done
for path in .a .a.b . '$.a' '$'; do
    given '{}' "$path"
    said "the path $path" 2 "invalid value '$path' for '<KEY|POINTER>': log_report counts by a key or a JSON Pointer: level, /level; --key"
    given '{}' level --and "$path"
    said "the path $path, by --and" 2 "'$path' for '<KEY|POINTER>': log_report counts by a key or a JSON Pointer: level, /level; --key"
done
given '{".a":1,"/b":2,"c":3}\n{"a":1}' --key .a --and c --key=/b
wanted 'keys of any bytes' 0 '1 1\t3\t2\n1 -\t-\t-\n' ''
given '{"~":1,"~1":2}' '~' --and /~0 --and '/~01' --and / --and '~1' --and '' --and a~
wanted 'selectors with ~' 0 '1 1\t1\t2\t-\t2\t-\t-\n' ''

given '' "$room/wanted-out" --key k
sed -i "s|$room|room|" "$room/err"
wanted 'a file in place of the key' 0 '' \
    'log_report: `room/wanted-out` is a file; the first word is a key or a JSON Pointer\n'

# A line ends with its file, and is named by the number that it has there.
printf '{"k":1}\n{"k":2}' > "$room/a"
printf '[1,]\n{"k":1}' > "$room/b"
: > "$room/none"
given '{"k":1}' k "$room/a" - "$room/none" "$room/b"
wanted 'files and standard input' 1 '3 1\n1 !\n1 2\n' "$room/b:1:4: expected a value, found \`]\` [InternalError]\\n"
given '[1,]' k -
wanted 'standard input by its name' 1 '1 !\n' '-:1:4: expected a value, found `]` [InternalError]\n'
given '' k "$room/missing" "$room/a" "$room" "$room/b"
sed -i "s|$room/||; s|$room|room|; s|: No such.*||; s|: Is a .*||" "$room/err"
wanted 'files that are missing, and a folder' 3 '2 1\n1 !\n1 2\n' \
    'b:1:4: expected a value, found `]` [InternalError]\nlog_report: missing\nlog_report: room\n'

# What can't be read or written. Who closes the report has had enough of it.
"$program" level < / > "$room/out" 2> "$room/err"
status=$?
said 'a folder as a log' 3 'log_report: -: '
if [ -w /dev/full ]; then
    : > "$room/out"
    echo '{}' | "$program" level > /dev/full 2> "$room/err"
    status=$?
    wanted 'a report on a full disk' 3 '' 'log_report: standard output: No space left on device (os error 28)\n'
fi
: > "$room/out"
# gone: waits until the reader of standard output has closed it.
gone() {
    (trap '' PIPE; while printf ' '; do :; done) 2> /dev/null
}
# closed INPUT: counts the lines of the input, a format of printf, for a reader that has closed the report.
closed() {
    { gone; printf "$1" | "$program" k 2> "$room/err"; echo $? > "$room/status"; } | :
    status=$(cat "$room/status")
}
closed '{"k":1}\n{"k":2}\n'
wanted 'a closed report' 0 '' ''
closed '{"k":1}\n[1,]\n'
wanted 'a closed report, and a rejected line' 1 '' '-:2:4: expected a value, found `]` [InternalError]\n'

# slowly NAME STATUS OUT ERR ARGUMENTS..: what the program must leave of three lines that come a byte at a time, from standard
# input and from the same pipe as a file.
slowly() {
    name=$1 wanted_status=$2 wanted_out=$3 wanted_err=$4
    shift 4
    for file in - /dev/stdin; do
        { for byte in '{' '"' k '"' : 1 '}' '\n' '[' 1 , ']' '\n' '{' '"' k '"' : 2 '}'; do
            printf "$byte"
            sleep 0.01
        done; } | "$program" "$@" "$file" > "$room/out" 2> "$room/err"
        status=$?
        sed "s|^$file|FILE|" "$room/err" > "$room/short"
        mv "$room/short" "$room/err"
        wanted "$name, $file" "$wanted_status" "$wanted_out" "$wanted_err"
    done
}
slowly 'a slow pipe, counted' 1 '1 !\n1 1\n1 2\n' 'FILE:2:4: expected a value, found `]` [InternalError]\n' k

# Fields of lines.
program=${3:-$(dirname "$0")/../crates/jpick_main/out/jpick_main}
[ -x "$program" ] || { echo "$program is not there: run make test" >&2; exit 1; }
given '{"a":"x"}\n \n{"a":2}' /a
wanted 'fields' 0 '"x"\n2\n' ''
given '{"a":1}\n[1,]\n{"a":3}\n' -r /a --and ''
wanted 'fields, where a line is rejected' 1 '1\t{"a":1}\n3\t{"a":3}\n' '-:2:4: expected a value, found `]` [InternalError]\n'
given '[1,]\n' -q /a
wanted 'a rejected line, quietly' 1 '' ''
given '[12]\n[1]' --longest 3 /0
wanted 'a line that is too long' 1 '1\n' '-:1: longer than 3 bytes (--longest)\n'
given '[[1]]\n[2]' --depth 1 /0
wanted 'a line that is too deep' 1 '2\n' '-:1:2: one container more than the depth limit [DepthLimitExceeded]\n'
document='{\n "k": [1,\n 2]}\n'
hint='jpick: to read a file as one document, type: jpick -d ..\n'
printf "$document" > "$room/document"
"$program" /k - "$room/missing" < "$room/document" > "$room/out" 2> "$room/err"
status=$?
wanted 'a document in place of lines' 2 '' "-:1:1: the input ends after this, within the object that begins at 1:1 [Syntax]\n$hint"
given "$document{\"k\":1}\n" -q /k
wanted 'a document in place of lines, quietly' 1 '1\n' ''
for option in -d --document; do
    given "$document" "$option" /k/1
    wanted "a document by $option" 0 '2\n' ''
done
given '{"k":1}\n[' -d /k
wanted 'more text after a document' 1 '' '-:2:1: more text after the document [TrailingData]\n'
given ' ' -d /k
wanted 'a blank document' 1 '' '-:1:2: expected a value, found only whitespace [Eof]\n'
given '[[1]]' -d --depth 1 /0
wanted 'a document that is too deep' 1 '' '-:1:2: one container more than the depth limit [DepthLimitExceeded]\n'
awk 'BEGIN { printf "["; for (i = 0; i < 100000; i++) printf "%d,\n", i; print "0]" }' > "$room/in"
"$program" -d /99999 "$room/in" - < "$room/in" > "$room/out" 2> "$room/err"
status=$?
wanted 'documents of 600 KB' 0 '99999\n99999\n' ''
filtered='{"k":1}\n{"k":1.0}\n{"k":-0}\n{"k":0}\n{"k":[1]}\n{}\n'
given "$filtered" --where '@.k == 0' /k
wanted 'lines where a value is 0' 0 '0\n0\n' ''
given "$filtered" --where '@.k == 1' /k
wanted 'lines where a value is 1' 0 '1\n1.0\n' ''
given "$filtered" --where '@.k' --where '!(@.k == 1)' /k
wanted 'lines that pass two tests' 0 '0\n0\n[1]\n' ''
given "$filtered" --where '@.k != 1' /k
wanted 'lines where a value is not 1, or there is none' 0 '0\n0\n[1]\n\n' ''
given "$filtered" --where '@.k[0] == 1' ''
wanted 'lines where an element is 1' 0 '{"k":[1]}\n' ''
given "$filtered" --where '@.*[*]' ''
wanted 'lines where there are elements in a member' 0 '{"k":[1]}\n' ''
given "$filtered" --where '!@.k' ''
wanted 'lines without a value' 0 '{}\n' ''
given '{"s":500,"l":"error"}\n{"s":499,"l":"error"}\n{"s":503,"l":"info"}\n{"s":"600","l":"error"}\n' --where '@.s >= 500 && @.l == "error"' ''
wanted 'lines with an error above 499' 0 '{"s":500,"l":"error"}\n' ''
selected='{"k":[{"n":"a"},{},{"n":[1]}]}\n{"k":[]}\n{}\n{"k":{"x":{"n":null}}}\n'
given "$selected" '$.k[*].n'
wanted 'a row for each value' 0 '"a"\n[1]\nnull\n' ''
given "$selected" -r '$..n'
wanted 'a row for each value beneath' 0 'a\n[1]\nnull\n' ''
given "$selected" '$.k[0].n'
wanted 'a singular path' 0 '"a"\n\n\n\n' ''
given "$selected" '$["k"][-1]["n"]' --and '$.k[*].n'
wanted 'columns of paths' 0 '[1]\t["a",[1]]\n\t[]\n\t[]\n\t[null]\n' ''
given "$selected" --all '$.k' --and '$.k[*].n'
wanted 'columns of paths, by --all' 0 '[{"n":"a"},{},{"n":[1]}]\t["a",[1]]\n{"x":{"n":null}}\t[null]\n' ''
given "$selected" --all '$.k[*].n'
wanted 'a row for each value, by --all' 0 '"a"\n[1]\nnull\n' ''
given "$selected" --json '$.k[*].n'
wanted 'a row for each value, by --json' 0 '["a"]\n[[1]]\n[null]\n' ''
given "$selected" --csv --header '$.k[*].n' --and '/k/0/n'
wanted 'columns of paths, by --csv --header' 0 '"$.k[*].n","/k/0/n"\n"[""a"",[1]]","a"\n"[]",\n"[]",\n"[null]",\n' ''
given "$selected" --tsv '$.k[?@.n == "a"].n' --and '$.k[1:].n'
wanted 'columns of paths, by --tsv' 0 '["a"]\t[[1]]\n[]\t[]\n[]\t[]\n[]\t[]\n' ''
given '{"statuses":[{"user":{"name":"A"}},\n{"user":{"name":"B"}}]}' -r '$.statuses[*].user.name' -d
wanted 'all names of a document' 0 'A\nB\n' ''
given '[[[1]],[2]]' --depth 2 '$..*'
wanted 'values beneath a line that is too deep' 1 '' '-:1:3: one container more than the depth limit [DepthLimitExceeded]\n'
given '[[[1]],[2]]' --depth 3 '$..*'
wanted 'values beneath, as deep as the limit' 0 '[[1]]\n[2]\n[1]\n1\n2\n' ''
rows='{"k":"x\\ty","l":[1]}\n{"k":"\\""}\n[1,]\n'
named='-:3:4: expected a value, found `]` [InternalError]\n'
for option in -r --raw; do
    given "$rows" "$option" /k --and /l
    wanted "rows by $option" 1 'x\ty\t[1]\n"\t\n' "$named"
done
given "$rows" --tsv /k --and /l
wanted 'rows by --tsv' 1 'x\\ty\t[1]\n"\t\n' "$named"
given "$rows" --csv /k --and /l
wanted 'rows by --csv' 1 '"x\ty","[1]"\n"""",\n' "$named"
given "$rows" -q --header --tsv /k --and '/a"b'
wanted 'rows by --header --tsv' 1 '/k\t/a"b\nx\\ty\t\n"\t\n' ''
given "$rows" -q --csv --header /k --and '/a"b'
wanted 'rows by --header --csv' 1 '"/k","/a""b"\n"x\ty",\n"""",\n' ''
echo '{}' | "$program" --header --csv /k >&- 2> "$room/err"
status=$?
: > "$room/out"
wanted 'a header for a closed output' 3 '' 'jpick: standard output: Bad file descriptor (os error 9)\n'
given "$rows" --header --json /k
said 'jpick --header --json' 2 --json
given "$rows" --json /k --and /l
wanted 'rows by --json' 1 '["x\\ty",[1]]\n["\\"",null]\n' "$named"
given "$rows" --all /k --and /l
wanted 'rows by --all' 1 '"x\\ty"\t[1]\n' "$named"
given "$rows" --quiet /l
wanted 'rows by --quiet' 1 '[1]\n\n' ''
for option in --tsv --csv; do
    given "$rows" "$option" --json /k
    said "jpick $option --json" 2 --json
done
given "$rows" --tsv --csv /k
said 'jpick --tsv --csv' 2 --csv
for query in a '/~' '/a/~2' @.a; do
    given '1' "$query"
    wanted "the query '$query'" 2 '' "jpick: \`$query\` is neither a JSON Pointer, as \`/a/b\`, nor a JSONPath, as \`\$.a.b\`\n"
done
given '1' .a.b
wanted 'a path of jq' 2 '' 'jpick: `.a.b` is a path of jq; a JSONPath has `$` in front of it\n'
given '1' /a --and b
wanted 'a second query' 2 '' 'jpick: `b` is neither a JSON Pointer, as `/a/b`, nor a JSONPath, as `$.a.b`\n'
given '1' '$.a['
wanted 'a path that ends early' 2 '' 'jpick: not a JSONPath: expected a selector\n$.a[\n    ^\n'
given '1' /a --and '$.a[?match(@.b)]'
wanted 'a match of one argument' 2 '' 'jpick: not a JSONPath: expected ,\n$.a[?match(@.b)]\n              ^\n'
given '{"level":"warning"}' --where 'search(@.level, "^w|err|warn[a-z]+")'
wanted 'a search' 0 '{"level":"warning"}\n' ''
# What is written in other languages: a path, what it lacks, how many columns in, and what is meant.
while IFS='#' read -r path column lacks meant; do
    given '1' "$path"
    wanted "the path $path" 2 '' "jpick: not a JSONPath: expected $lacks; $meant\\n$path\\n%${column}s^\\n"
done << 'END'
$[?@.a = 1]#7#, or ]#write == for equality
$[?@.a === 1]#9#a literal, a query or a function#write == for equality
$[?@.a == 1 and @.b]#12#, or ]#write && for and
$[?@.a == 1 OR @.b]#12#, or ]#write || for or
$[?not @.a]#3#a test#write ! for not, as !(@.a == 1)
$[?@.a in [1,2]]#7#, or ]#write @.a == 1 || @.a == 2 for in
$[?@.a =~ /b/]#7#, or ]#there are no regular expressions
$[?a == 1]#3#a test#write @.a for a member, and 'a' for a string
$[?@.a == b]#10#a literal, a query or a function#write @.a for a member, and 'a' for a string
$.a-b#3#. or [ or the end#write ['a-b'] for a name with such characters
$a#1#. or [ or the end#write $.a for a member
$.a,$.b#3#. or [ or the end#write --and before each further query
$.a < 1#4#. or [ or the end#write --where '@.a == 1' for a test
END
given '{"a..b":1}' '/a..b' --depth 1089
wanted 'a pointer with .. and a great depth' 0 '1\n' ''
given '1' "$room/a"
wanted 'a pointer that is the name of a file' 0 '\n' ''
echo '[1]' > "$room/one"
at=$(cd "$(dirname "$program")" && pwd)/$(basename "$program")
(cd "$room" && "$at" one < one > out 2> err; echo $? > status)
status=$(cat "$room/status")
wanted 'a file in place of the query' 2 '' 'jpick: `one` is a file; the first word is the query, a JSON Pointer or a JSONPath\n'
while IFS='#' read -r condition column lacks; do
    given '1' --where "$condition" /a
    wanted "the condition '$condition'" 2 '' \
        "jpick: not a condition, as \`@.status == 500\`: expected $lacks\\n$condition\\n%${column}s^\\n"
done << 'END'
/status=500#0#a test; write @.a for a member, and 'a' for a string
.a == 1#0#a test; write @.a for a member, and 'a' for a string
@.a = 1#4#&&, || or the end; write == for equality
@.a ==#6#a literal, a query or a function
@[*] == 1#1#a query of at most one node
#0#a test
END
given '{"a":[1,{"b":"c"}]}\n' -d --pretty
wanted 'a document over several lines' 0 '{\n  "a": [\n    1,\n    {\n      "b": "c"\n    }\n  ]\n}\n' ''
for option in --tsv --csv --json; do
    given '1' --pretty "$option"
    said "jpick --pretty $option" 2 "$option"
done
given '{"b":[{"d":1,"c":2}],"a":3,"b":4}\n' --sort-keys ''
wanted 'members by their keys' 0 '{"a":3,"b":[{"c":2,"d":1}],"b":4}\n' ''
given '{"b":[{"d":1,"c":2}],"a":3}\n' --sort-keys --csv '' --and '$..b[*]'
wanted 'members by their keys, in columns' 0 '"{""a"":3,""b"":[{""c"":2,""d"":1}]}","[{""c"":2,""d"":1}]"\n' ''
# A value takes the same stack at any depth: as it is, as a string of columns, and with its keys in order.
awk 'BEGIN { for (i = 0; i < 1000000; i++) printf "["; for (i = 0; i < 1000000; i++) printf "]"; print "" }' > "$room/nested"
for option in --raw --tsv --csv --json --sort-keys; do
    case $option in
        --csv) sed 's/.*/"&"/' "$room/nested" ;;
        --json) sed 's/.*/[&]/' "$room/nested" ;;
        *) cat "$room/nested" ;;
    esac > "$room/in"
    env -i sh -c 'ulimit -s 256 && exec "$@"' sh "$program" -d --depth 4294967295 "$option" '' "$room/nested" > "$room/out" 2> "$room/err"
    status=$?
    [ "$status" = 0 ] && cmp -s "$room/in" "$room/out" && [ ! -s "$room/err" ] && continue
    different=1
    echo "a million arrays by $option: status $status, wanted 0 and what was given"
done
# Rows take no memory: 100,000 zeros in 1,000 arrays, on lines of their own.
awk 'BEGIN {
    for (i = 0; i < 1000; i++) printf "["
    for (i = 0; i < 99999; i++) printf "0,"
    printf "0"
    for (i = 0; i < 1000; i++) printf "]"
}' > "$room/nested"
{ env -i sh -c 'ulimit -v 32768 && exec "$@"' sh "$program" -d --pretty '' "$room/nested" 2> "$room/err"; echo $? > "$room/status"; } | wc -c > "$room/out"
status=$(cat "$room/status")
wanted '202 MB of an input of 202 kB' 0 "$((2 * 1000 * 1001 + 100000 * 2003 - 1))\n" ''
users='{"users":[{"name":"a","age":1},{"name":"b","tags":["x","y"]}],\n"name":"c"}\n'
given "$users" -d -r --each '$.users[*]' /name --and /age
wanted 'rows of each user' 0 'a\t1\nb\t\n' ''
given "$users" -d --each '$.users[*]' --where '@.tags' '$.tags[*]'
wanted 'rows of each user that passes a test' 0 '"x"\n"y"\n' ''
printf "$users" > "$room/users"
given '' -d --sort-keys --each /users/0 '' "$room/users"
wanted 'a user in a file' 0 '{"age":1,"name":"a"}\n' ''
given "$users" -d -e --each '$.users[*]' /age --and /tags
wanted 'rows of no user' 1 '' ''
given '1' --each users /a
wanted 'an --each that is no query' 2 '' 'jpick: `users` is neither a JSON Pointer, as `/a/b`, nor a JSONPath, as `$.a.b`\n'
given '1' --all
said 'jpick without a query' 2 'QUERY'
given '{"k":1}\n{"k":2}\n' --where '@.k == 2'
wanted 'whole lines' 0 '{"k":2}\n' ''
given '' --where '@.k == 2' "$room/one" -
wanted 'whole lines of files' 0 '' ''
for option in -e --exit-status; do
    given '{}\n{"k":""}\n' -r "$option" /k
    wanted "a row by $option" 0 '\n' ''
    given '{}\n{"k":1}\n' "$option" /k --and /l
    wanted "no row by $option" 1 '' ''
    given '' --header "$option" /k
    wanted "no line by $option" 1 '/k\n' ''
    given '1\n[1,]\n' "$option" ''
    wanted "a row and a rejected line by $option" 1 '1\n' '-:2:4: expected a value, found `]` [InternalError]\n'
done
given '{"a,":{"b":1}}' '/a,/b'
wanted 'a pointer with a comma' 0 '1\n' 'jpick: `/a,/b` is one query; write --and before a second one\n'
given '' -q '/a,/b'
wanted 'a pointer with a comma, quietly' 0 '' ''
for query in /b '$.b'; do
    given '' /a "$query"
    wanted "$query for a file" 3 '' "jpick: $query: No such file or directory (os error 2); write --and before a second query\n"
done
given '' --where '@.a' .b
wanted '.b for a file' 3 '' 'jpick: .b: No such file or directory (os error 2); a query begins with `/` or `$`\n'
given '' /a /b.json ./b
wanted 'files that are not there' 3 '' \
    'jpick: /b.json: No such file or directory (os error 2)\njpick: ./b: No such file or directory (os error 2)\n'
for option in --where-not --exists; do
    given '1' "$option" /a /a
    said "jpick $option" 2 "$option"
done
for number in +1 -0; do
    given '1' "--depth=$number" /a
    said "jpick --depth=$number" 2 "invalid value '$number' for '--depth <N>': invalid digit found in string"
    given '1' "--longest=$number" /a
    said "jpick --longest=$number" 2 "invalid value '$number' for '--longest <BYTES>': invalid digit found in string"
done
"$program" /a < / > "$room/out" 2> "$room/err"
status=$?
said 'a folder as input, fields' 3 'jpick: -: '
: > "$room/out"
echo '[1]' | "$program" /0 >&- 2> "$room/err"
status=$?
wanted 'closed output, fields' 3 '' 'jpick: standard output: Bad file descriptor (os error 9)\n'
if [ -w /dev/full ]; then
    echo '[1]' | "$program" /0 > /dev/full 2> "$room/err"
    status=$?
    wanted 'a full disk, fields' 3 '' 'jpick: standard output: No space left on device (os error 28)\n'
fi
"$program" /0 "$room/one" "$room/missing" "$room/one" > "$room/out" 2> "$room/err"
status=$?
sed "s|$room/||; s|: No such.*||" "$room/err" > "$room/short"
mv "$room/short" "$room/err"
wanted 'a file that is not there' 3 '1\n1\n' 'jpick: missing\n'

slowly 'a slow pipe, fields' 1 '1\n2\n' 'FILE:2:4: expected a value, found `]` [InternalError]\n' /k

# The row of a line is written before more is read, also where that ended with the line.
mkfifo "$room/pipe"
"$program" /k < "$room/pipe" > "$room/out" 2> "$room/err" &
exec 3> "$room/pipe"
for number in 1 2; do
    printf '{"k":%d}\n' "$number" >&3
    tries=0
    until [ "$(wc -l < "$room/out")" -eq "$number" ] || [ "$tries" -eq 50 ]; do
        sleep 0.1
        tries=$((tries + 1))
    done
done
cp "$room/out" "$room/early"
exec 3>&-
wait "$!"
status=$?
mv "$room/early" "$room/out"
wanted 'rows while the input is open' 0 '1\n2\n' ''

# A reader that goes away before all is written.
# picked FILE: the fields of the lines of the file, for a reader that takes the first alone.
picked() {
    { "$program" /0 < "$1" 2> "$room/err"; echo $? > "$room/status"; } | head -n 1 > "$room/out"
    status=$(cat "$room/status")
}
picked "$room/many"
wanted 'a closed pipe, fields' 0 '12345\n' ''
{ echo '[1,]'; cat "$room/many"; } > "$room/rejected"
picked "$room/rejected"
wanted 'a closed pipe, fields, and a rejected line' 1 '12345\n' '-:1:4: expected a value, found `]` [InternalError]\n'
# The files after it are not read.
{ "$program" /0 "$room/many" "$room/missing" 2> "$room/err"; echo $? > "$room/status"; } | head -n 1 > "$room/out"
status=$(cat "$room/status")
wanted 'a closed pipe, fields of more files' 0 '12345\n' ''
{ "$program" /0 "$room/missing" "$room/many" "$room" 2> "$room/err"; echo $? > "$room/status"; } | head -n 1 > "$room/out"
status=$(cat "$room/status")
sed "s|$room/||; s|: No such.*||" "$room/err" > "$room/short"
mv "$room/short" "$room/err"
wanted 'a closed pipe, fields after a file that is not there' 3 '12345\n' 'jpick: missing\n'

# Of jcheck an input that can't be read is named, and an output that can't be written.
program=${4:-$(dirname "$0")/../crates/jcheck_main/out/jcheck_main}
[ -x "$program" ] || { echo "$program is not there: run make test" >&2; exit 1; }
given '' "$room/missing"
said 'a file that is missing, checked' 3 "jcheck: $room/missing: "
given '{"a": "b,\n "c": 1}'
wanted 'a missing quote' 1 \
    '-:1:10: a line feed in the string that begins at 1:7 [Syntax at byte 9]\n{"a": "b,\n         ^\n' ''
given '1\n{"a\tb": 1}\n' --lines
wanted 'a tab in a line' 1 '-:2:4: a tab in the string that begins at 2:2 [Syntax at byte 5]\n{"a b": 1}\n   ^\n' ''
given '[1,2\n[3]\n' --lines
wanted 'a line that ends early' 1 \
    '-:1:4: the input ends after this, within the array that begins at 1:1 [Syntax at byte 3]\n[1,2\n   ^\n' ''
given '{"名前": "李小龙", x: 1}'
wanted 'a caret after wide characters' 1 \
    '-:1:15: expected a key after `,`, found `x` [ExpectedObjectKey at byte 24]\n{"名前": "李小龙", x: 1}\n%19s^\n' ''
given '\357\273\277{}'
wanted 'a byte order mark' 1 '-:1:1: byte order mark [InternalError at byte 0]\n<U+FEFF>{}\n^\n' ''
for depth in +1 -0 x; do
    given '1' "--depth=$depth"
    said "jcheck --depth=$depth" 2 "invalid value '$depth' for '--depth <N>': invalid digit found in string"
done
given '1' --depth 007
wanted 'a depth with zeros in front, checked' 0 '' ''
for option in --color=never --lines; do
    "$program" "$option" < / > "$room/out" 2> "$room/err"
    status=$?
    said "a folder as input, jcheck $option" 3 'jcheck: -: '
    if [ -w /dev/full ]; then
        : > "$room/out"
        echo '[1,]' | "$program" "$option" > /dev/full 2> "$room/err"
        status=$?
        said "a full disk, jcheck $option" 3 'jcheck: standard output: '
    fi
    : > "$room/out"
    { gone; echo '[1,]' | "$program" "$option" 2> "$room/err"; echo $? > "$room/status"; } | :
    status=$(cat "$room/status")
    wanted "a closed pipe, jcheck $option" 1 '' ''
done

# Control characters in names are escaped, and words that are not UTF-8 have a reason.
printf '[1,]' > "$room/$(printf 'a\033[31mb')"
for words in "$log_report k" "${3:-$(dirname "$0")/../crates/jpick_main/out/jpick_main} /k" \
    "${4:-$(dirname "$0")/../crates/jcheck_main/out/jcheck_main} --lines"; do
    program=$(cd "$(dirname "${words% *}")" && pwd)/$(basename "${words% *}")
    name=$(basename "$program" _main)
    (cd "$room" && "$program" "${words##* }" "$(printf 'a\033[31mb')" "$(printf '\033')" > out 2>&1)
    grep -q '^a.x1b.31mb:1:4: ' "$room/out" && grep -q "^$name: .x1b: " "$room/out" && ! grep -q "$(printf '\033')" "$room/out" || {
        different=1
        echo "$name: control characters in names"
        cat -v "$room/out"
    }
    given '' "$(printf '\377')"
    wanted "$name, an argument that is no UTF-8" 2 '' "$name: an argument is not UTF-8\n"
done

# Help and version, where they can't be written, and where nobody reads them.
for word in --help --version; do
    for program in "$log_report" \
        "${3:-$(dirname "$0")/../crates/jpick_main/out/jpick_main}" \
        "${4:-$(dirname "$0")/../crates/jcheck_main/out/jcheck_main}"; do
        name=$(basename "$program" _main)
        : > "$room/out"
        if [ -w /dev/full ]; then
            "$program" "$word" > /dev/full 2> "$room/err"
            status=$?
            said "a full disk, $name $word" 3 "$name: standard output: "
        fi
        { gone; "$program" "$word" 2> "$room/err"; echo $? > "$room/status"; } | :
        status=$(cat "$room/status")
        wanted "a closed pipe, $name $word" 0 '' ''
    done
done

exit $different
