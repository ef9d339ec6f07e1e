#!/bin/sh
# Prints what tables, listing and violations cost: the seconds by the clock and of the processor, and the peak of memory, of one install
# of the policy of bench/rule_policy.sh, at 1, 2, 4 and 8 times, of `rules` to a file behind it, and of `violations` behind it. The words
# of the command are the times to try. Build the program first: `make run`; GNU time is needed.
set -eu
cd "$(dirname "$0")/.."
. bench/session.sh
. bench/rule_policy.sh

# A session over a script, once.
run_once() {
    measure_session "$2"
    awk -v name="$1" -v k="$k" -v size="$size" -v answer="$(tail -n 1 "$folder/answer")" '{
        printf "%-10s %d times %9d bytes %8.3f s %8.3f s of the processor %8.1f MiB   %s\n", name, k, size, $1, $2 + $3, $4 / 1024, answer
    }' "$folder/figures"
}

for k in ${*:-1 2 4 8}; do
    rule_policy "$k" > "$folder/text"
    script_of_text
    for question in rules violations; do
        { cat "$folder/script"; echo "$question"; } > "$folder/$question"
    done
    run_once install "$folder/script"
    run_once rules "$folder/rules"
    run_once violations "$folder/violations"
done
