#!/bin/sh
# Prints what set statements cost: the time of one install of the policy of bench/set_policy.sh, at 1, 2, 4 and 8 times, best of three,
# beside that of the same policy without its set statements; and how much time each takes for each byte. Then, for the members of its
# attributes, how often a set statement is evaluated at a type, by the program of bench/evaluations, which `rt try` builds without its
# proofs in a copy of what is committed. Build the program first: `make run`.
set -eu
cd "$(dirname "$0")/.."
. bench/session.sh
. bench/set_policy.sh

# The time of one install of the text, and for each byte.
time_of() {
    script_of_text
    best=$(best_time)
    awk -v name="$1" -v k="$k" -v size="$size" -v ns="$best" -v answer="$(cut -c1-40 "$folder/answer")" 'BEGIN {
        printf "%-12s %d times %9d bytes %8.3f s %6.1f ns a byte   %s\n", name, k, size, ns / 1e9, ns / size, answer
    }'
}

for k in 1 2 4 8; do
    sets "$k" 0 > "$folder/text"
    time_of without
    sets "$k" 1 > "$folder/text"
    time_of with
done

mkdir "$folder/copy"
git archive HEAD HANDLES crates.txt crates | tar -x -C "$folder/copy"
mkdir -p "$folder/copy/crates/set_evaluations/src"
cp bench/evaluations/main.txt "$folder/copy/crates/set_evaluations/src/main.rt"
echo 'set_evaluations: cil_counters cil_resolve cil_parse cil_names' >> "$folder/copy/crates.txt"
for k in 1 2 4 8; do
    sets "$k" 1 > "$folder/text"
    printf '%d times   ' "$k"
    (cd "$folder/copy/crates/set_evaluations" && rt try < "$folder/text" 2> "$folder/log") | grep evaluations
done
