implement FixedSine;

include "sys.m";
sys: Sys;
include "draw.m";

FixedSine: module {
    init: fn(ctxt: ref Draw->Context, argv: list of string);
};

# A table of sines in fixed point with 16 bits behind the point, by the series.

ONE: con 1 << 16;
PI: con 205887;     # 3.14159 * 65536

mul(a, b: int): int {
    return int (big a * big b >> 16);
}

# x from -PI/2 to PI/2
sine(x: int): int {
    square := mul(x, x);
    term := x;
    sum := x;
    for (k := 2; term != 0 && k < 20; k += 2) {
        term = -mul(term, square) / (k * (k + 1));
        sum += term;
    }
    return sum;
}

# prints a number in fixed point with four decimals
show(x: int) {
    if (x < 0) {
        sys->print("-");
        x = -x;
    }
    frac := (x & ONE - 1) * 10000 >> 16;
    sys->print("%d.", x >> 16);
    for (d := 1000; d > 0; d /= 10)
        sys->print("%d", frac / d % 10);
}

init(nil: ref Draw->Context, nil: list of string) {
    sys = load Sys Sys->PATH;
    for (deg := -90; deg <= 90; deg += 10) {
        x := int (big deg * big PI / big 180);
        sys->print("%d\t", deg);
        show(sine(x));
        sys->print("\n");
    }
}
