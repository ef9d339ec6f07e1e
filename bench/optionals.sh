#!/bin/sh
# Prints how long one install of a module of optionals takes, grown by 1, 2, 4 and 8 times, best of three. At 8 times it has 80,000
# optionals. In a chain each needs a type of the next one, and the last one needs a type that isn't there: all drop, against the
# order of the text. In a web each needs types of some others, and all are kept; in a nest they stand in one another, some 200 deep.
# A time that grows faster than the module shows a step that is not linear. Build the program first: `make run`.
set -eu
cd "$(dirname "$0")/.."
. bench/session.sh

chain() {
    awk -v k="$1" 'BEGIN {
        print "(class p (use))(type a)";
        n = 10000 * k;
        for (i = 0; i < n; i++) printf "(optional o%d (type t%d) (allow a t%d (p (use))))\n", i, i, i + 1;
    }'
}

web() {
    awk -v k="$1" 'BEGIN {
        srand(7);
        print "(class p (use))(type a)";
        n = 10000 * k;
        for (i = 0; i < n; i++) {
            printf "(optional o%d (type t%d)", i, i;
            for (j = 0; j < 3; j++) printf " (allow a t%d (p (use)))", int(rand() * n);
            print ")";
        }
    }'
}

nest() {
    awk -v k="$1" 'BEGIN {
        print "(class p (use))(type a)";
        n = 50 * k;
        for (i = 0; i < n; i++) {
            for (j = 0; j < 200; j++) printf "(optional o (type t%d_%d) (allow a t%d_%d (p (use)))\n", i, j, (i * 7) % n, (j * 3) % 200;
            for (j = 0; j < 200; j++) printf ")";
            print "";
        }
    }'
}

for shape in chain web nest; do
    for k in 1 2 4 8; do
        "$shape" "$k" > "$folder/text"
        script_of_text
        best=$(best_time)
        awk -v shape="$shape" -v k="$k" -v size="$size" -v ns="$best" -v answer="$(cut -c1-40 "$folder/answer")" 'BEGIN {
            printf "%-6s %d times %9d bytes %8.3f s %8.3f s a time   %s\n", shape, k, size, ns / 1e9, ns / 1e9 / k, answer
        }'
    done
done
