implement Edigits;

include "sys.m";
sys: Sys;
include "draw.m";

Edigits: module {
    init: fn(ctxt: ref Draw->Context, argv: list of string);
};

# Digits of e by the series of 1/k!; two bigs hold the sum, and two the term.

base: con big 1000000000;

init(nil: ref Draw->Context, nil: list of string) {
    sys = load Sys Sys->PATH;
    # term = thigh:tlow, sum = high:low, each part below 10^9
    thigh := big 100000000;
    tlow := big 0;
    high := big 0;
    low := big 0;
    n := 1;
    do {
        high += thigh;
        low += tlow;
        high += low / base;
        low %= base;
        # divide the term by n
        rest := thigh % big n;
        thigh /= big n;
        tlow = (tlow + rest * base) / big n;
        n++;
    } while (thigh != big 0 || tlow != big 0);
    sys->print("terms: %d\n", n - 1);
    sys->print("e * 10^8  = %bd\n", high);
    sys->print("next nine = %bd\n", low);
    for (i := 0; i < 8; i++)
        high /= big 10;
    sys->print("e is between %bd and %bd\n", high, high + big 1);
}
