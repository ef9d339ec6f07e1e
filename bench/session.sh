# What the benches share: a folder of their own, the time of a session over a script, and its peak of memory. The program is the
# one that is built, or that of the variable PROGRAM.
program=${PROGRAM:-$PWD/crates/cilsem/out/cilsem}
folder=$(mktemp -d)
trap 'rm -r "$folder"' EXIT

# Makes a script that installs a text of the folder.
script_of_text() {
    size=$(wc -c < "$folder/text")
    { echo "install m 400 $size"; cat "$folder/text"; echo; } > "$folder/script"
}

# The least number of nanoseconds of three runs of a command.
best_of() {
    for _ in 1 2 3; do
        from=$(date +%s%N)
        "$@" > "$folder/answer" || true
        to=$(date +%s%N)
        echo $((to - from))
    done | sort -n | head -n 1
}

# A session over the script.
answer_script() {
    "$program" session < "$folder/script"
}

# The nanoseconds of a session over the script, the least of three.
best_time() {
    best_of answer_script
}

# The peak of memory of a session over the script, in KiB.
peak_memory() {
    /usr/bin/time -f %M -o "$folder/peak" "$program" session < "$folder/script" > "$folder/answer" || true
    tail -n 1 "$folder/peak"
}

# Runs a command once, and notes its seconds by the clock, those of the processor for itself and for the system, and its peak in KiB.
measure() {
    /usr/bin/time -f '%e %U %S %M' -o "$folder/figures" "$@"
}

# The same for a session over a script, whose answer stays in the folder.
measure_session() {
    measure "$program" session < "$1" > "$folder/answer"
}
