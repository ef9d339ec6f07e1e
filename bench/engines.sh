#!/bin/sh
# Compares the engine that changes its counters in place with the one that compiles anew: `cilsem session` and the program of
# `cil_plain_session` answer random scripts of edits and batches, and what they print and their exit statuses have to be the same. The
# words of the command are the number of scripts, 2000 where it isn't set, and the seed, 1 where it isn't. It prints how many are
# answered alike, how many had accepted edits with changes and how many had refused ones, and the first script that differs. The
# programs are those that `make test` builds, or those of the variables PROGRAM and PLAIN; python3 is needed.
set -eu
cd "$(dirname "$0")/.."
program=${PROGRAM:-crates/cilsem/out/cilsem}
plain=${PLAIN:-crates/cil_plain_session/out/cil_plain_session}
exec python3 bench/engines.py "$program" "$plain" "${1:-2000}" "${2:-1}"
