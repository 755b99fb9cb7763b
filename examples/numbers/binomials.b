implement Binomials;

include "sys.m";
sys: Sys;
include "draw.m";

Binomials: module {
    init: fn(ctxt: ref Draw->Context, argv: list of string);
};

# Binomial coefficients by products and by recursion, and choosing 6 of 49.

choose(n, k: int): big {
    if (k < 0 || k > n)
        return big 0;
    if (k > n - k)
        k = n - k;
    r := big 1;
    for (i := 1; i <= k; i++)
        r = r * big (n - k + i) / big i;
    return r;
}

slow(n, k: int): int {
    if (k == 0 || k == n)
        return 1;
    return slow(n-1, k-1) + slow(n-1, k);
}

init(nil: ref Draw->Context, nil: list of string) {
    sys = load Sys Sys->PATH;
    sys->print("choose(49, 6) = %bd\n", choose(49, 6));
    sys->print("choose(60, 30) = %bd\n", choose(60, 30));
    sys->print("choose(10, 11) = %bd, choose(10, -1) = %bd\n", choose(10, 11), choose(10, -1));
    for (k := 0; k <= 14; k++)
        sys->print("%d %bd %d\n", k, choose(14, k), slow(14, k));
    s := big 0;
    for (k = 0; k <= 60; k++)
        s += choose(60, k);
    sys->print("sum of the row 60: %bd, 2^60: %bd\n", s, big 1 << 60);
}
