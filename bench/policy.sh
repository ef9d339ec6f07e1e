# The generated policy of the benches: at `policy 8` it has some 5,000 types, 1,000 attributes and 100,000 rules, in blocks and
# outside, with aliases, commons and dotted names.
policy() {
    awk -v k="$1" 'BEGIN {
        srand(7);
        for (i = 0; i < 10; i++) printf "(common m%d (read write open))\n", i;
        for (i = 0; i < 100; i++) printf "(class c%d (use see))\n(classcommon c%d m%d)\n", i, i, i % 10;
        types = 525 * k; blocks = 50 * k; aliases = 100 * k; rules = 12400 * k;
        for (i = 0; i < types; i++) printf "(type t%d)\n", i;
        for (i = 0; i < 125 * k; i++) printf "(typeattribute a%d)\n", i;
        for (i = 0; i < aliases; i++) printf "(typealias l%d)\n(typealiasactual l%d t%d)\n", i, i, int(rand() * types);
        for (i = 0; i < blocks; i++) printf "(block b%d (type x) (block in (type y)) (allow x in.y (c%d (read use))) (allow in.y t%d (c1 (see))))\n", i, i % 100, int(rand() * types);
        for (i = 0; i < rules; i++) {
            from = "t" int(rand() * types); to = "t" int(rand() * types);
            if (i % 5 == 0) from = "l" int(rand() * aliases);
            if (i % 7 == 0) to = "b" int(rand() * blocks) ".in.y";
            printf "(allow %s %s (c%d (read open use)))\n", from, to, int(rand() * 100);
        }
    }'
}
