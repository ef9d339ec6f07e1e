#!/bin/sh
# Runs the examples by the built program, and compares what they print with the files `.answers`. The program is the one that
# `make run` and `make test` build, or that of the variable PROGRAM.
set -eu
cd "$(dirname "$0")"
program=${PROGRAM:-../crates/cilsem/out/cilsem}
passed=0
failed=0

# Compares what a command prints on standard output and standard error, and its status behind that, with a file.
expect() {
    answers=$1
    shift
    if { "$@" 2>&1 || echo "status $?"; } | cmp -s - "$answers"; then
        passed=$((passed + 1))
    else
        echo "$answers: the program prints something else" >&2
        failed=$((failed + 1))
    fi
}

session() {
    "$@" | "$program" session
}

expect first.answers session cat first.session
expect store.answers session cat store.session
expect pair.answers session cat pair.session
expect set.answers session cat set.session
expect site.answers session ./site.sh
expect compile.answers "$program" compile site/base.cil site/web.cil site/database.cil site/local.cil
expect violations.answers "$program" compile --violations site/base.cil site/web.cil site/leak.cil
expect refused.answers "$program" compile site/base.cil site/local.cil
echo "$passed passed, $failed failed"
test $failed -eq 0
