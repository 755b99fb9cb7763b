implement BigShifts;

include "sys.m";
sys: Sys;
include "draw.m";

BigShifts: module {
    init: fn(ctxt: ref Draw->Context, argv: list of string);
};

# Shifts of bigs by all counts from 0 to 63, and taking bigs apart into words.

init(nil: ref Draw->Context, nil: list of string) {
    sys = load Sys Sys->PATH;
    a := 16r0123456789ABCDEF;
    b := -a;
    for (n := 0; n < 64; n++)
        sys->print("%d: %bd %bd %bd %bd\n", n, big 1 << n, a << n, a >> n, b >> n);
    hex(a);
    hex(b);
    hex(a << 4 | a >> 60 & big 15);
    hex(~a ^ b);
    a >>= 13;
    a <<= 7;
    hex(a);
    sys->print("%bd\n", join(int (b >> 32), int b) - b);
}

hex(x: big) {
    for (s := 60; s >= 0; s -= 4)
        sys->print("%x", int (x >> s) & 15);
    sys->print(" %d %d\n", int (x >> 32), int x);
}

join(high, low: int): big {
    return big high << 32 | big low & (big 1 << 32) - big 1;
}
