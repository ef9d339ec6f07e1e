#!/bin/sh
# Prints what a large policy costs: the time of one install of the generated policy at 8 times beside that of `sha256sum` over the
# same text; the time of an install of `(type z)` into a store that has it; and the peak of memory, of this text and of 15 MiB of
# nested brackets. Build the program first: `make run`; GNU time is needed.
set -eu
cd "$(dirname "$0")/.."
. bench/session.sh
. bench/policy.sh

policy 8 > "$folder/text"
script_of_text
sum=$(best_of sha256sum "$folder/text")
load=$(best_time)
peak=$(peak_memory)
awk -v size="$size" -v sum="$sum" -v load="$load" -v peak="$peak" -v answer="$(cut -c1-40 "$folder/answer")" 'BEGIN {
    printf "text      %9d bytes   %s\n", size, answer
    printf "sha256sum %9.3f s\n", sum / 1e9
    printf "load      %9.3f s      %.1f times sha256sum\n", load / 1e9, load / sum
    printf "memory    %9.1f MiB    %.1f times the text\n", peak / 1024, peak * 1024 / size
}'

# Ten edits, so that the load and the start of the program weigh little.
for i in 0 1 2 3 4 5 6 7 8 9; do
    printf 'install z 400 %d\n(type z%d)\n' 9 "$i"
done >> "$folder/script"
with_edits=$(best_time)
awk -v load="$load" -v both="$with_edits" 'BEGIN {
    edit = (both - load) / 10
    printf "edit      %9.3f s      %.2f of the load\n", edit / 1e9, edit / load
}'

awk 'BEGIN {
    for (i = 0; i < 255; i++) { open = open "("; close_all = close_all ")" }
    for (i = 0; i < 15 * 1048576 / 533; i++) printf "(typeattributeset a %s%s)\n\n", open, close_all
}' > "$folder/text"
script_of_text
nested=$(best_time)
peak=$(peak_memory)
awk -v size="$size" -v ns="$nested" -v peak="$peak" -v answer="$(cut -c1-40 "$folder/answer")" 'BEGIN {
    printf "nested    %9.3f s      %d bytes   %s\n", ns / 1e9, size, answer
    printf "memory    %9.1f MiB    %.1f times the text\n", peak / 1024, peak * 1024 / size
}'
