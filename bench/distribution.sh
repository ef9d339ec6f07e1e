#!/bin/sh
# Compiles each slice of a real distribution's policy by `cilsem compile`, compares the rows and the bytes of its listing with what they
# have to be, asks for the violations, and prints seconds by the clock and of the processor and the peaks of memory; beside each, in the
# same run, `secilc` over the same files. The word of the command is the folder of the slices: SLICE/NAME.cil, and prologue/SLICE.cil,
# which `secilc` needs in front of them. Build the program first: `make run`; GNU time and `secilc` are needed.
set -eu
corpus=$1
cd "$(dirname "$0")/.."
. bench/session.sh
failed=0

tell() {
    awk -v name="$1" -v answer="$2" '{
        printf "%-20s %8.2f s %8.2f s of the processor %8.1f MiB   %s\n", name, $1, $2 + $3, $4 / 1024, answer
    }' "$folder/figures"
}

# Compares what was found with what has to be.
compare() {
    if [ "$2" != "$3" ]; then
        echo "$1: $2 and not $3" >&2
        failed=1
    fi
}

slice() {
    files=$(ls "$corpus/$1"/*.cil)
    measure "$program" compile $files > "$folder/listing"
    lines=$(wc -l < "$folder/listing")
    bytes=$(wc -c < "$folder/listing")
    tell "$1 listing" "$lines rows of $bytes bytes"
    compare "$1 rows" "$lines" "$2"
    compare "$1 bytes" "$bytes" "$3"
    measure "$program" compile --violations $files > "$folder/violations"
    tell "$1 violations" "$(wc -l < "$folder/violations")"
    compare "$1 violations" "$(wc -l < "$folder/violations")" 0
    measure secilc -o "$folder/policy" -f /dev/null "$corpus/prologue/$1.cil" $files > "$folder/told"
    tell "$1 secilc" "$(wc -c < "$folder/policy") bytes"
    rm "$folder/listing"
}

slice base 61869 4559027
slice base10 225183 28355305
slice base50 516974 66773155
slice base150 1750390 228292172
slice all 4405744 514727635
exit $failed
