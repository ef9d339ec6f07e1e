#!/bin/sh
# Compares `cilsem compile --foreign names` with `secilc` and setools over the unedited modules of Debian's policy, and over small cases.
#
# The distribution's packages are converted and not edited. Slices of them (base, base10, base50, base150, all) are compiled by `secilc`, and
# setools reads back the rules; rows, dropped optionals (`secilc -vv` names them) and violations have to be the same, line by line, for the
# booleans' own values and for both branches of each conditional. The small cases of bench/foreign have a statement of each kind, inside and
# outside an optional, with each of its names replaced. Where `secilc` refuses more than a missing name, nothing is claimed and nothing
# compared. At the end, time and peak of memory over all modules, beside those of `secilc`. What differs is printed, and the status is 1.
#
# The first word is a folder for the converted modules, which is made where it isn't there; after it may stand the parts to compare: kinds,
# cases, base, base10, base50, base150, all. Build the program first, or name it by the variable PROGRAM. Debian's packages that this needs:
# secilc python3-setools semodule-utils policycoreutils selinux-policy-default time
set -eu
cd "$(dirname "$0")/.."
. bench/session.sh
work=${1:-$folder}
[ $# -eq 0 ] || shift
mkdir -p "$work"
work=$(realpath "$work")
packages=/usr/share/selinux/default

convert=
for place in /usr/libexec/selinux/hll/pp /usr/lib/selinux/hll/pp; do
    [ ! -x "$place" ] || convert=$place
done
if [ -z "$convert" ] || ! command -v secilc > "$folder/known" || ! /usr/bin/python3 -c 'import setools' || [ ! -d "$packages" ]; then
    echo "needs: secilc python3-setools semodule-utils policycoreutils selinux-policy-default" >&2
    exit 2
fi

if [ ! -d "$work/unedited" ]; then
    mkdir "$work/converting"
    for package in "$packages"/*.pp "$packages"/*.pp.bz2; do
        name=$(basename "$package" .bz2)
        case $package in
            *'*'*) ;;
            *.bz2) bzcat "$package" | "$convert" > "$work/converting/${name%.pp}.cil" ;;
            *) "$convert" < "$package" > "$work/converting/${name%.pp}.cil" ;;
        esac
    done
    mv "$work/converting" "$work/unedited"
fi
echo "$(ls "$work/unedited" | wc -l) modules of $(cat "$work/unedited"/*.cil | wc -c) bytes"

failed=0
/usr/bin/python3 bench/peers.py "$program" "$work" "$@" || failed=1

tell() {
    awk -v name="$1" '{ printf "%-50s %8.2f s %8.1f MiB\n", name, $1, $4 / 1024 }' "$folder/figures"
}

files=$(ls "$work/unedited"/*.cil)
measure "$program" compile --foreign names $files > "$folder/answer"
tell "compile --foreign names, all"
measure "$program" compile --foreign names --violations $files > "$folder/answer"
tell "compile --foreign names --violations, all"
measure secilc -m -X 5000 -N -o "$folder/policy" -f /dev/null $files > "$folder/told"
tell "secilc -m -X 5000 -N, all (attributes written out)"
measure secilc -m -o "$folder/policy" -f /dev/null $files > "$folder/told"
tell "secilc -m, all (neverallow rules checked)"
exit $failed
