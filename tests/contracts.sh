#!/bin/sh
# Each public function of a library (a crate with src/lib.rt that is proved) has an `ensures` clause, and so has each function that a
# public trait asks for. Those below have none, each for the reason beside it. Silent where all is well, else a line for each function
# that lacks a contract, for each exception that is not needed any more, for each library of which no function is found, and for each
# name in docs/PROVED.md that is in no crate; status 1.
set -u
cd "$(dirname "$0")/.." || exit 1
. scripts/crates.sh
room=$(mktemp -d) || exit 1
trap 'rm -rf "$room"' EXIT

cat > "$room/exceptions" << 'END'
programs arguments                    no contract says which words the system passes
programs print_ending                 no contract says what standard error shows
jpick asked                           options are tested (tests/statuses.sh)
jpick Spare::new                      the lists are memory for the next value
jpick Spare::reserve                  as above
jpick Spare::allocator                as above
simd_json_serde NodeReader::into_outer  the list is empty memory for the next reader
END

# Clauses are between a function's signature and its body. `rt fmt` puts each clause and, after clauses, the body's bracket at
# the beginning of a line, and without clauses the bracket at the signature's end.
cat > "$room/functions" << 'END'
# type_of TEXT: the type or the trait of the first line of an item, without parameters.
function type_of(text, open) {
    sub(/^(pub )?(impl|trait)/, "", text)
    if (text ~ /^</) {
        do {
            open += (substr(text, 1, 1) == "<") - (substr(text, 1, 1) == ">")
            text = substr(text, 2)
        } while (open > 0 && text != "")
    }
    sub(/^ */, "", text)
    sub(/[^A-Za-z0-9_].*/, "", text)
    return text "::"
}
function end() {
    if (name != "") print crate, (inside name), (has ? "has" : "lacks"), FILENAME ":" line
    name = ""
}
FNR == 1 { inside = ""; asks = 0 }
/^ *\/\// { next }
/^(impl|pub trait)[ <]/ { inside = type_of($0); asks = /^pub trait/ }
/^}/ { inside = ""; asks = 0 }
/^ *pub (const |unsafe |extern "C" )*fn / || asks && /^    fn / {
    end()
    name = $0
    sub(/^.*[^a-z]fn /, "", name)
    sub(/[^A-Za-z0-9_].*/, "", name)
    has = clauses = 0
    line = FNR
}
name == "" { next }
/^ *ensures / { has = 1; end(); next }
/^ *(ghost|requires) / { clauses = 1 }
/^ *(\{|\{\})$/ || /;$/ || !clauses && /[{}]$/ { end() }
END { end() }
END
for crate in $(all_crates); do
    is_proved "$crate" || continue
    [ -e "crates/$crate/src/lib.rt" ] || continue
    find "crates/$crate/src" -name '*.rt' | sort > "$room/files"
    while read -r file; do awk -v crate="$crate" -f "$room/functions" "$file"; done < "$room/files" > "$room/found"
    [ -s "$room/found" ] || echo "crates/$crate: no public function is found"
    cat "$room/found" >> "$room/all"
done > "$room/wrong"

awk 'NR == FNR { reason[$1 " " $2] = 1; next }
    $3 == "lacks" && !(($1 " " $2) in reason) { print $4 ": " $2 " has no contract" }
    $3 == "lacks" { used[$1 " " $2] = 1 }
    END { for (name in reason) if (!(name in used)) print "tests/contracts.sh: no exception is needed for " name }
' "$room/exceptions" "$room/all" >> "$room/wrong"

# What docs/PROVED.md names is there: a file, or a word of code or of a definition.
grep -o '`[A-Za-z_][A-Za-z_:/.]*`' docs/PROVED.md | tr -d '`' | sort -u | while read -r name; do
    for file in "$name" "include/$name" "crates/$name" crates/*/"$name" crates/*/specs/"$name"; do [ ! -e "$file" ] || continue 2; done
    case $name in *[/.]*) false ;; *) grep -rqw -e "${name##*::}" crates/*/src crates/*/specs ;; esac || echo "docs/PROVED.md: no $name"
done >> "$room/wrong"
cat "$room/wrong"
[ ! -s "$room/wrong" ]
