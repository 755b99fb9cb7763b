implement Continued;

include "sys.m";
sys: Sys;
include "draw.m";

Continued: module {
    init: fn(ctxt: ref Draw->Context, argv: list of string);
};

# Continued fractions of square roots, of fractions, and the approximations that they give.

root(n: int): int {
    r := 0;
    while ((r + 1) * (r + 1) <= n)
        r++;
    return r;
}

period(n: int): int {
    a0 := root(n);
    if (a0 * a0 == n) {
        sys->print("%d: [%d]\n", n, a0);
        return 0;
    }
    sys->print("%d: [%d;", n, a0);
    m := 0;
    d := 1;
    a := a0;
    count := 0;
    do {
        m = d * a - m;
        d = (n - m * m) / d;
        a = (a0 + m) / d;
        sys->print(" %d", a);
        count++;
    } while (a != 2 * a0);
    sys->print("]\n");
    return count;
}

init(nil: ref Draw->Context, nil: list of string) {
    sys = load Sys Sys->PATH;
    odd := 0;
    for (n := 2; n <= 50; n++)
        odd += period(n) & 1;
    sys->print("%d have odd periods\n", odd);

    # pi as 31415926535897932/10^16
    p := 31415926535897932;
    q := 10000000000000000;
    h0, k1: big = big 0;
    h1, k0: big;
    h1 = k0 = big 1;
    for (i := 0; i < 12; i++) {
        a := p / q;
        h := a * h1 + h0;
        k := a * k1 + k0;
        h0 = h1; h1 = h;
        k0 = k1; k1 = k;
        sys->print("%bd: %bd/%bd\n", a, h, k);
        rest := p - a * q;
        p = q;
        q = rest;
    }
}
