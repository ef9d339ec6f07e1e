#!/bin/sh
# Prints what single edits of a real distribution's policy cost. The words of the command are the folder of a slice (its modules,
# NAME.cil), the order in which they can be installed, and the file that `secilc` needs in front of them. The modules are installed one
# by one in a session; then one more allow rule, one more type, one more type of `domain`, and the disabling and enabling of a small
# module are timed, the least of ROUNDS, which is 3 where it isn't set. Beside that, in the same rounds, `secilc` compiles the same
# files, if it is installed, and the least of its times is told, too. A fourth word names the small module. Where the order is `=`, all
# modules are installed as one batch, and where it is `-`, all but the small one as one text. Build the program first: `make run`;
# python3 is needed.
set -eu
slice=$1
order=$2
prologue=$3
small=${4:-aide}
cd "$(dirname "$0")/.."
. bench/session.sh

set --
if command -v secilc > "$folder/found"; then
    set -- secilc -o "$folder/policy" -f /dev/null "$prologue" "$slice"/*.cil
fi
python3 bench/edits.py "$program" "$slice" "$order" "$small" "${ROUNDS:-3}" "$@" > "$folder/edits"
# The times by the clock, and of the processor alone, which other work on the machine doesn't lengthen much.
awk -F '\t' '
    NR == FNR { if ($1 == "secilc") { clock = $2; processor = $3 }; next }
    { printf "%-20s %9.3f s %9.3f s of the processor", $1, $2, $3 }
    $1 != "secilc" && clock { printf "   %7.4f and %7.4f of secilc", $2 / clock, $3 / processor }
    { print "   " $4 }
' "$folder/edits" "$folder/edits"
