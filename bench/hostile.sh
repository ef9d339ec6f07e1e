#!/bin/sh
# Prints time and peak memory of one install of texts that could make a compiler multiply two of their counts, each at two sizes.
# Two shapes are asked for violations too. Where both grow as the text does, nothing is multiplied. A first word of the command names
# the shapes to try, all where there is none. Build the program first: `make run`; GNU time is needed.
set -eu
cd "$(dirname "$0")/.."
. bench/session.sh

# one common of many permissions, and many classes that take it
common() {
    awk -v k="$1" 'BEGIN {
        printf "(common m ("; for (i = 0; i < 10000 * k; i++) printf "p%06x ", i; print "))"
        for (i = 0; i < 100 * k; i++) printf "(class c%d ())(classcommon c%d m)\n", i, i
    }'
}

# one class that is given many commons, and many rules that name permissions of them: each rule one of another common, and one that the
# last common lists, and so do as many commons that the class isn't given
commons() {
    awk -v k="$1" 'BEGIN {
        n = 2500 * k
        print "(type t)(class c ())(common last (q))"
        for (i = 0; i < n; i++) printf "(common m%d (p%d))(classcommon c m%d)(common o%d (q))\n", i, i, i, i
        print "(classcommon c last)"
        for (i = 0; i < n; i++) printf "(allow t t (c (p%d q)))\n", i
    }'
}

# a name that each of the nested blocks declares in an optional, and many references to it in the innermost
blocks() {
    awk -v k="$1" 'BEGIN {
        print "(class p (use))"
        for (i = 0; i < 100; i++) printf "(block b (optional o (type t) (allow t nowhere%d (p (use))))\n", i
        for (i = 0; i < 2000 * k; i++) printf "(optional o%d (allow t t (p (use))))\n", i
        for (i = 0; i < 100; i++) printf ")"
        print ""
    }'
}

# set expressions nested as deep as the text may
sets() {
    awk -v k="$1" 'BEGIN {
        for (i = 0; i < 253; i++) { open = open "(not "; close_all = close_all ")" }
        for (i = 0; i < 500 * k; i++) printf "(typeattributeset a %sa%s)\n", open, close_all
    }'
}

# one class that lists one permission many times, and many rules whose permissions are an expression
repeats() {
    awk -v k="$1" 'BEGIN {
        printf "(type a)(class f ("; for (i = 0; i < 50000 * k; i++) printf "r "; print "))"
        for (i = 0; i < 5000 * k; i++) print "(allow a a (f (all)))"
    }'
}

# nothing but brackets
brackets() {
    awk -v k="$1" 'BEGIN {
        for (i = 0; i < 255; i++) { open = open "("; close_all = close_all ")" }
        for (i = 0; i < 2000 * k; i++) printf "(typeattributeset a %s%s)\n", open, close_all
    }'
}

# names with dots through 250 blocks
dotted() {
    awk -v k="$1" 'BEGIN {
        print "(class p (use))"
        for (i = 0; i < 250; i++) { printf "(block b "; name = name "b." }
        print "(type t)"
        for (i = 0; i < 250; i++) printf ")"
        print ""
        for (i = 0; i < 250 * k; i++) printf "(allow %st %st (p (use)))\n", name, name
    }'
}

# optionals each of which needs the next one, and the last what isn't there
chain() {
    awk -v k="$1" 'BEGIN {
        print "(class p (use))(type a)"
        for (i = 0; i < 10000 * k; i++) printf "(optional o%d (type t%d) (allow a t%d (p (use))))\n", i, i, i + 1
    }'
}

# one permission set of many statements over 200 classes, and a rule that names it
statements() {
    awk -v k="$1" 'BEGIN {
        print "(type t)(classpermission s)(allow t t s)"
        for (i = 0; i < 200; i++) printf "(class c%d (p q r w))\n", i
        for (i = 0; i < 12500 * k; i++) printf "(classpermissionset s (c%d (xor (p q) (q r))))\n", i % 200
    }'
}

# expressions of permissions nested as deep as the text may, in rules and in a permission set
nots() {
    awk -v k="$1" 'BEGIN {
        print "(type t)(class c (p q))(classpermission s)(allow t t s)"
        for (i = 0; i < 250; i++) { open = open "(not "; close_all = close_all ")" }
        for (i = 0; i < 250 * k; i++) {
            printf "(allow t t (c %s(p)%s))\n", open, close_all
            printf "(classpermissionset s (c %s(q)%s))\n", open, close_all
        }
    }'
}

# many rules that name one permission set, each of a type of its own
named() {
    awk -v k="$1" 'BEGIN {
        print "(type t)(class c (p q))(class d (p))(classpermission s)(classpermissionset s (c (not (q))))(classpermissionset s (d (all)))"
        for (i = 0; i < 12500 * k; i++) printf "(type t%d)(allow t%d t s)\n", i, i
    }'
}

# many permission sets, each with a statement and a rule
many() {
    awk -v k="$1" 'BEGIN {
        print "(type t)(class c (p q))"
        for (i = 0; i < 12500 * k; i++) printf "(classpermission s%d)(classpermissionset s%d (c (p)))(allow t t s%d)\n", i, i, i
    }'
}

# many rules without an access, and a rule with accesses, that name one permission set of all permissions of many classes
idle() {
    awk -v k="$1" 'BEGIN {
        print "(type t)(typeattribute e)(classpermission s)(allow t t s)"
        for (i = 0; i < 100 * k; i++) {
            printf "(class c%d (", i
            for (j = 0; j < 32; j++) printf "p%d ", j
            printf "))(classpermissionset s (c%d (all)))\n", i
        }
        for (i = 0; i < 2500 * k; i++) printf "(allow e e s)\n"
    }'
}

# two permission sets that share one permission of many: 100 neverallow rules of the first and of another one like it, in
# turn, and many allow rules of the second
large_sets() {
    awk -v k="$1" -v other="$2" 'BEGIN {
        print "(type t)(type o)(classpermission s)(classpermission v)(classpermission u)"
        print "(classpermissionset u (c0 (p0)))"
        for (j = 0; j < 16; j++) { low = low "p" j " "; high = high "p" (j + 16) " " }
        for (i = 0; i < 100 * k; i++) {
            printf "(class c%d (%s%s))(classpermissionset u (c%d (%s)))\n", i, low, high, i, high
            printf "(classpermissionset s (c%d (%s)))(classpermissionset v (c%d (%s)))\n", i, low, i, low
        }
        for (i = 0; i < 50; i++) printf "(neverallow t o s)(neverallow t o %s)\n", other
        for (i = 0; i < 250 * k; i++) print "(allow t o u)"
    }'
}

# the same with neverallow rules of one set alone
shared() {
    large_sets "$1" s
}

turns() {
    large_sets "$1" v
}

# one rule of an attribute of all types to itself, with as many permissions as a class may have
themselves() {
    awk -v k="$1" 'BEGIN {
        for (j = 0; j < 32; j++) permissions = permissions "p" j " "
        printf "(class c (%s))(typeattribute a)(typeattributeset a all)\n", permissions
        for (i = 0; i < 1000 * k; i++) printf "(type t%d)\n", i
        printf "(allow a a (c (%s)))\n", permissions
    }'
}

# one set statement that lists all types by their names
listed() {
    awk -v k="$1" 'BEGIN {
        print "(typeattribute a)"
        for (i = 0; i < 2500 * k; i++) printf "(type t%d)\n", i
        printf "(typeattributeset a ("
        for (i = 0; i < 2500 * k; i++) printf "t%d ", i
        print "))"
    }'
}

# attributes that each have one type more than the last, and a rule of each to itself
growing() {
    awk -v k="$1" 'BEGIN {
        print "(class c (p))(typeattribute a0)"
        for (i = 1; i <= 250 * k; i++) {
            printf "(type t%d)(typeattribute a%d)(typeattributeset a%d (a%d t%d))(allow a%d a%d (c (p)))\n", i, i, i, i - 1, i, i, i
        }
    }'
}

for shape in ${1:-common commons blocks sets repeats brackets dotted chain statements nots named many idle shared turns themselves growing listed}; do
    for k in 1 4; do
        "$shape" "$k" > "$folder/text"
        script_of_text
        case "$shape" in shared | turns) echo violations >> "$folder/script" ;; esac
        best=$(best_time)
        peak=$(peak_memory)
        answer=$(tail -n 1 "$folder/answer" | cut -c1-40)
        awk -v shape="$shape" -v size="$size" -v ns="$best" -v peak="$peak" -v answer="$answer" 'BEGIN {
            printf "%-10s %9d bytes %8.3f s %8.1f MiB   %s\n", shape, size, ns / 1e9, peak / 1024, answer
        }'
    done
done
