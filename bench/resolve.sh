#!/bin/sh
# Prints how long one install of the generated policy takes, grown by 1, 2, 4 and 8 times, best of three. A time that grows faster
# than the policy shows a step that is not linear. Build the program first: `make run`.
set -eu
cd "$(dirname "$0")/.."
. bench/session.sh
. bench/policy.sh

for k in 1 2 4 8; do
    policy "$k" > "$folder/text"
    script_of_text
    best=$(best_time)
    awk -v k="$k" -v size="$size" -v ns="$best" -v answer="$(cut -c1-40 "$folder/answer")" 'BEGIN {
        printf "%d times %9d bytes %8.3f s %8.3f s a time   %s\n", k, size, ns / 1e9, ns / 1e9 / k, answer
    }'
done
