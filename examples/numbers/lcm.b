implement Lcm;

include "sys.m";
sys: Sys;
include "draw.m";

Lcm: module {
    init: fn(ctxt: ref Draw->Context, argv: list of string);
};

# The least common multiple of the numbers from 1 to n, as long as it fits a big.

gcd(a: big, b: big): big {
    if (b == big 0) return a;
    return gcd(b, a % b);
}

lcm(a: big, b: big): big {
    return a / gcd(a, b) * b;
}

init(nil: ref Draw->Context, nil: list of string) {
    sys = load Sys Sys->PATH;
    l := big 1;
    for (i := 1; i <= 42; i++) {
        l = lcm(l, big i);
        sys->print("lcm(1..%d) = %bd\n", i, l);
    }
}
