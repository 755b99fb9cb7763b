implement Temperature;

include "sys.m";
sys: Sys;
include "draw.m";

Temperature: module {
    init: fn(ctxt: ref Draw->Context, argv: list of string);
};

# Fahrenheit and Celsius, rounded and with tenths.

tenths(n: int) {
    if (n < 0) {
        sys->print("-");
        n = -n;
    }
    sys->print("%d.%d", n / 10, n % 10);
}

round(a, b: int): int {
    # b is above 0
    if (a < 0)
        return -((-a + b / 2) / b);
    return (a + b / 2) / b;
}

init(nil: ref Draw->Context, nil: list of string) {
    sys = load Sys Sys->PATH;
    lower, upper, step: int;
    lower = -60;
    upper = 300;
    step = 20;
    fahr := lower;
    while (fahr <= upper) {
        celsius := 5 * (fahr - 32) / 9;
        sys->print("%d\t%d\t", fahr, celsius);
        tenths(round(50 * (fahr - 32), 9));
        sys->print("\n");
        fahr = fahr + step;
    }
    for (c := -40; c <= 100; c += 35) {
        tenths(c * 18 + 320);
        sys->print(" F = %d C = ", c);
        tenths(10 * c + 2731);
        sys->print(" K\n");
    }
}
