implement Factorials;

include "sys.m";
sys: Sys;
include "draw.m";

Factorials: module {
    init: fn(ctxt: ref Draw->Context, argv: list of string);
};

# Factorials as bigs, with the trailing zeros of n! counted in two ways.

fact(n: int): big {
    if (n <= 1)
        return big 1;
    return big n * fact(n - 1);
}

zeros(n: int): int {
    count := 0;
    for (p := 5; p <= n; p *= 5)
        count += n / p;
    return count;
}

init(nil: ref Draw->Context, nil: list of string) {
    sys = load Sys Sys->PATH;
    for (n := 0; n <= 20; n++) {
        f := fact(n);
        z := 0;
        for (g := f; g % big 10 == big 0; g /= big 10)
            z++;
        sys->print("%d! = %bd with %d zeros", n, f, z);
        if (z != zeros(n))
            sys->print("??");
        sys->print("\n");
    }
    sys->print("21! wraps to %bd\n", fact(21));
    sys->print("30! wraps to %bd\n", fact(30));
    sys->print("70! wraps to %bd\n", fact(70));
    sys->print("100! ends in %d zeros, 1000! in %d\n", zeros(100), zeros(1000));
}
