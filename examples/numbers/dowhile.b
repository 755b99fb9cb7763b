implement DoWhile;

include "sys.m";
sys: Sys;
include "draw.m";

DoWhile: module {
    init: fn(ctxt: ref Draw->Context, argv: list of string);
};

# Loops that test last: digits backwards, guesses, and with break and continue.

backwards(n: int): int {
    r := 0;
    do {
        r = r * 10 + n % 10;
        n /= 10;
    } while (n != 0);
    return r;
}

init(nil: ref Draw->Context, nil: list of string) {
    sys = load Sys Sys->PATH;
    sys->print("%d %d %d %d\n", backwards(12345), backwards(0), backwards(100), backwards(-987));
    i := 10;
    do
        sys->print("once %d\n", i++);
    while (i < 5);
    n := 0;
    do {
        n++;
        if (n % 2 == 0)
            continue;
        if (n > 9)
            break;
        sys->print("%d ", n);
    } while (n < 100);
    sys->print("stopped at %d\n", n);
    n = 0;
    do {
        if (n++ == 3)
            continue;
        sys->print("%d ", n);
    } while (n < 7);
    sys->print("\n");
    a := 3;
    do {
        b := a;
        do {
            sys->print("%d%d ", a, b);
        } while (b-- > 1);
        sys->print("/ ");
    } while (--a);
    sys->print("%d\n", a);
    n = 1;
    do ; while ((n *= 2) < 1000);
    sys->print("%d\n", n);
    do {
        n -= 100;
        if (n < 0) {
            sys->print("below zero: %d\n", n);
            return;
        }
    } while (1);
}
