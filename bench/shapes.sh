#!/bin/sh
# bench/run.sh calls it: sh bench/shapes.sh OUT ROUNDS LIBRARY.so CONTENDER..
# Times tweets and each shape of bench/shapes.py at 1 MB and at 64 MB: OUT/shapes.tsv. A sample has copies of 64 MB at least, so
# that no cache holds those of the smaller. What memory a parse of the larger takes by that library, for each of its bytes:
# OUT/memory.tsv. The texts of shapes are large, so they are made and removed one after another.
set -eu
OUT=$1 ROUNDS=$2 LIBRARY=$3
shift 3
SAMPLE=64000000
export SAMPLE
FOLDER=$OUT/texts/shapes
mkdir -p "$FOLDER/1000000" "$FOLDER/64000000"
: > "$OUT/shapes.tsv"
: > "$OUT/memory.tsv"

# A text that is there: its name, its size.
measure() {
    # shellcheck disable=SC2086
    "$OUT/harness" "$ROUNDS" "$FOLDER/$2/$1.json" -- $contenders >> "$OUT/shapes.tsv" < /dev/null
    if [ "$2" = 64000000 ]; then
        printf '%s\t%s\n' "$1" "$(python3 bench/memory.py "$LIBRARY" "$FOLDER/$2/$1.json")" >> "$OUT/memory.tsv"
    fi
    rm "$FOLDER/$2/$1.json"
}

contenders=$*
cp "$OUT/texts/sizes/5.json" "$FOLDER/1000000/tweets.json"
cp "$OUT/texts/sizes/8.json" "$FOLDER/64000000/tweets.json"
measure tweets 1000000
measure tweets 64000000
python3 bench/shapes.py | while read -r shape; do
    for size in 1000000 64000000; do
        python3 bench/shapes.py "$shape" $size > "$FOLDER/$size/$shape.json"
        measure "$shape" $size
    done
done
