# A generated policy in the shape of a real one, mostly of set statements. At 8 times it has 60,000 of them, 52,000 of one attribute,
# 800 attributes and 4,000 types. Most statements name one type or one attribute; some unite several, and some take types away.
# `sets 8 1` has its set statements, `sets 8 0` none.
sets() {
    awk -v k="$1" -v with_sets="$2" 'BEGIN {
        srand(7);
        types = 500 * k; attributes = 100 * k - 1; rules = 3000 * k;
        for (i = 0; i < 100; i++) printf "(class c%d (use see read write open))\n", i;
        for (i = 0; i < types; i++) printf "(type some_type_%d_t)\n", i;
        for (i = 0; i < attributes; i++) printf "(typeattribute some_attribute_%d)\n", i;
        print "(typeattribute required)";
        for (i = 0; i < rules; i++)
            printf "(allow some_type_%d_t some_type_%d_t (c%d (read open use)))\n", int(rand() * types), int(rand() * types), int(rand() * 100);
        if (!with_sets) exit;
        for (i = 0; i < 6500 * k; i++)
            if (i % 10 == 0) printf "(typeattributeset required (some_attribute_%d))\n", int(rand() * attributes);
            else printf "(typeattributeset required (some_type_%d_t))\n", int(rand() * types);
        for (i = 0; i < 1000 * k; i++) {
            of = i % attributes; below = int(rand() * of); one = int(rand() * types); other = int(rand() * types);
            if (i % 97 == 0 && of) printf "(typeattributeset some_attribute_%d (and (some_attribute_%d) (not (some_type_%d_t))))\n", of, below, one;
            else if (i % 13 == 0 && of) printf "(typeattributeset some_attribute_%d (some_attribute_%d some_type_%d_t some_type_%d_t))\n", of, below, one, other;
            else if (i % 5 == 0) printf "(typeattributeset some_attribute_%d (some_type_%d_t some_type_%d_t))\n", of, one, other;
            else printf "(typeattributeset some_attribute_%d (some_type_%d_t))\n", of, one;
        }
    }'
}
