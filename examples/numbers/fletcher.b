implement Fletcher;

include "sys.m";
sys: Sys;
include "draw.m";

Fletcher: module {
    init: fn(ctxt: ref Draw->Context, argv: list of string);
};

# Fletcher's checksums with 16 and with 32 bits.

lo, hi: int;

feed(v: int, m: int) {
    lo = (lo + v) % m;
    hi = (hi + lo) % m;
}

init(nil: ref Draw->Context, nil: list of string) {
    sys = load Sys Sys->PATH;
    for (n := 5; n <= 8; n++) {
        lo = hi = 0;
        for (c := 'a'; c < 'a' + n; c++)
            feed(c, 255);
        sys->print("first %d letters: %d %x\n", n, hi << 8 | lo, hi << 8 | lo);
    }
    # the letters in pairs, the first one low
    lo = hi = 0;
    for (c := 'a'; c < 'g'; c += 2)
        feed((c + 1) << 8 | c, 65535);
    sys->print("32 bits: %x\n", hi << 16 | lo);
}
