# A generated policy in the shape of a distribution's: at `rule_policy 8` it has 4,000 types, 800 attributes, 160,000 allow rules of which
# nine in ten go from one type to one type and 360 from many to many, 20,000 dontaudit rules, and 30 neverallow rules, of which one from
# a complement to everything and its mirror give nearly all of half a billion accesses.
rule_policy() {
    awk -v k="$1" 'BEGIN {
        srand(11);
        types = 500 * k; attributes = 100 * k; classes = 134;
        for (c = 0; c < classes; c++) {
            printf "(class c%d (", c;
            for (p = 0; p < 31; p++) printf "%sp%d", p ? " " : "", p;
            printf "))\n";
        }
        for (i = 0; i < types; i++) printf "(type t%d)\n", i;
        for (i = 0; i < attributes; i++) printf "(typeattribute a%d)\n", i;
        for (i = 0; i < attributes; i++) {
            printf "(typeattributeset a%d (", i;
            for (n = 0; n < 4 + i % 200; n++) printf "t%d ", int(rand() * types);
            printf "))\n";
        }
        # The few that may, all others, and everything.
        printf "(typeattribute few)(typeattributeset few (t0 t1 t2 t3))\n";
        printf "(typeattribute others)(typeattributeset others (not few))\n";
        printf "(typeattribute everything)(typeattributeset everything all)\n";
        for (i = 0; i < 18000 * k; i++) printf "(allow t%d t%d (c%d (p0 p3 p%d)))\n", 4 + int(rand() * (types - 4)), 4 + int(rand() * (types - 4)), i % (classes - 1), 4 + i % 27;
        for (i = 0; i < 1955 * k; i++) printf "(allow a%d t%d (c%d (p1 p2)))\n", int(rand() * attributes), 4 + int(rand() * (types - 4)), i % (classes - 1);
        for (i = 0; i < 45 * k; i++) printf "(allow a%d a%d (c%d (p1 p2 p%d)))\n", int(rand() * attributes), int(rand() * attributes), i % (classes - 1), 3 + i % 28;
        for (i = 0; i < 2500 * k; i++) printf "(dontaudit t%d t%d (c%d (p5 p6)))\n", int(rand() * types), int(rand() * types), i % (classes - 1);
        # The last class is that of what nothing may do.
        printf "(neverallow others everything (c%d (p0", classes - 1;
        for (p = 1; p < 16; p++) printf " p%d", p;
        printf ")))\n(neverallow everything others (c%d (p16", classes - 1;
        for (p = 17; p < 31; p++) printf " p%d", p;
        printf ")))\n";
        for (i = 0; i < 28; i++) printf "(neverallow a%d a%d (c%d (p30)))\n", i, i + 40, classes - 1;
    }'
}
