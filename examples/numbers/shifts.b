implement Shifts;

include "sys.m";
sys: Sys;
include "draw.m";

Shifts: module {
    init: fn(ctxt: ref Draw->Context, argv: list of string);
};

# Shifts of ints by all counts from 0 to 31, of positive and of negative numbers.

init(nil: ref Draw->Context, nil: list of string) {
    sys = load Sys Sys->PATH;
    a := 16r12345678;
    b := -1000000000;
    for (n := 0; n < 32; n++)
        sys->print("%d: %x %d %d %d %x\n", n, 1 << n, a << n, a >> n, b >> n, b << n);
    # shifts with a logical meaning
    for (n = 1; n < 32; n += 5)
        sys->print("%x ", logical(b, n));
    sys->print("\n");
    # rotations
    x := 16r80000001;
    for (n = 0; n < 8; n++) {
        sys->print("%x ", x);
        x = rotate(x, 5);
    }
    sys->print("\n");
    y := 1;
    y <<= 4;
    y <<= y / 4;
    sys->print("%d", y);
    y >>= 3 + 2;
    sys->print(" %d %d %d\n", y, 1 << 2 + 3, 256 >> 1 << 2);
}

logical(x, n: int): int {
    return (x >> n) & ~(-1 << 32 - n);
}

rotate(x, n: int): int {
    return x << n | logical(x, 32 - n);
}
