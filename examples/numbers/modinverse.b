implement ModInverse;

include "sys.m";
sys: Sys;
include "draw.m";

ModInverse: module {
    init: fn(ctxt: ref Draw->Context, argv: list of string);
};

# Inverses modulo m by the extended algorithm of Euclid; 0 where there is none.

inverse(a, m: int): int {
    r0, r1, s0, s1: int;
    r0 = m; r1 = a % m;
    s0 = 0; s1 = 1;
    while (r1 != 0) {
        q := r0 / r1;
        t := r0 - q * r1; r0 = r1; r1 = t;
        t = s0 - q * s1; s0 = s1; s1 = t;
    }
    if (r0 != 1)
        return 0;
    if (s0 < 0)
        s0 += m;
    return s0;
}

init(nil: ref Draw->Context, nil: list of string) {
    sys = load Sys Sys->PATH;
    for (m := 2; m <= 16; m++) {
        sys->print("mod %d:", m);
        for (a := 1; a < m; a++)
            sys->print(" %d", inverse(a, m));
        sys->print("\n");
    }
    x := inverse(123456789, 1000000007);
    sys->print("1/123456789 = %d, check %bd\n", x, big x * big 123456789 % big 1000000007);
    sys->print("1/3 mod 2^30 = %d\n", inverse(3, 1 << 30));
}
