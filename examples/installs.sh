#!/bin/sh
# Prints the script that installs files as one batch, at priority 400, each under its base name less `.cil`:
#     { examples/installs.sh FILE...; echo rules; } | cilsem session
set -eu
echo begin
for file in "$@"; do
    echo "install $(basename "$file" .cil) 400 $(wc -c < "$file" | tr -d ' ')"
    cat "$file"
    echo
done
echo commit
