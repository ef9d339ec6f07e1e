#!/bin/sh
# Prints how fast `cilsem session` reads texts of 1, 4 and 16 MiB of four kinds, in MiB/s, best of three. A number that falls
# as the text grows shows a step that is not linear. Build the program first: `make run`.
set -eu
cd "$(dirname "$0")/.."
. bench/session.sh

# Each writes a text of so many bytes: 16 a statement, 8 a permission, 64 a comment, 512 and more a nested set.
statements() {
    awk -v n=$(($1 / 16)) 'BEGIN { for (i = 0; i < n; i++) printf "(type t%07d)\n", i }'
}

permissions() {
    awk -v n=$(($1 / 8 - 2)) 'BEGIN { printf "(class k (\n"; for (i = 0; i < n; i++) printf "p%06x\n", i; printf "))   " }'
}

comments() {
    awk -v n=$(($1 / 64)) 'BEGIN { for (i = 0; i < n; i++) printf "; %061d\n", i }'
}

nested() {
    awk -v n=$(($1 / 533)) 'BEGIN {
        for (i = 0; i < 255; i++) { open = open "("; close_all = close_all ")" }
        for (i = 0; i < n; i++) printf "(typeattributeset a %s%s)\n\n", open, close_all
        for (i = n * 533; i < '"$1"'; i++) printf "\n"
    }'
}

for kind in statements permissions comments nested; do
    for mib in 1 4 16; do
        "$kind" $((mib * 1048576)) > "$folder/text"
        script_of_text
        best=$(best_time)
        awk -v kind="$kind" -v size="$size" -v ns="$best" -v answer="$(cut -c1-40 "$folder/answer")" 'BEGIN {
            printf "%-12s %9d bytes %8.3f s %8.1f MiB/s   %s\n", kind, size, ns / 1e9, size / 1048576 / (ns / 1e9), answer
        }'
    done
done
