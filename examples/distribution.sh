#!/bin/sh
# Compiles the modules of Debian's reference policy as the distribution has them, and prints what they allow, or with other words of
# `compile` behind it what these ask for: `examples/distribution.sh --violations`, `examples/distribution.sh --booleans both`.
#
# The packages are converted to CIL in a folder that is taken away at the end, and none is edited. It needs, on Debian:
#     apt-get install selinux-policy-default semodule-utils policycoreutils
# The program is `cilsem`, or the one that the variable PROGRAM names.
set -eu
program=${PROGRAM:-cilsem}
packages=/usr/share/selinux/default
convert=
for place in /usr/libexec/selinux/hll/pp /usr/lib/selinux/hll/pp; do
    [ ! -x "$place" ] || convert=$place
done
if [ -z "$convert" ] || [ ! -d "$packages" ]; then
    echo "needs: selinux-policy-default semodule-utils policycoreutils" >&2
    exit 2
fi
folder=$(mktemp -d)
trap 'rm -rf "$folder"' EXIT
for package in "$packages"/*.pp.bz2; do
    bzcat "$package" | "$convert" > "$folder/$(basename "$package" .pp.bz2).cil"
done
"$program" compile --foreign names "$@" "$folder"/*.cil
