implement Armstrong;

include "sys.m";
sys: Sys;
include "draw.m";

Armstrong: module {
    init: fn(ctxt: ref Draw->Context, argv: list of string);
};

# Armstrong numbers: those that are the sum of their digits, each to the power of how many they are.

power(b, e: int): int {
    p := 1;
    while (e-- > 0)
        p *= b;
    return p;
}

digits(n: int): int {
    d := 1;
    while (n >= 10) {
        d++;
        n /= 10;
    }
    return d;
}

armstrong(n: int): int {
    d := digits(n);
    m := n;
    sum := 0;
    do {
        sum += power(m % 10, d);
        m /= 10;
    } while (m != 0);
    return sum == n;
}

init(nil: ref Draw->Context, nil: list of string) {
    sys = load Sys Sys->PATH;
    for (n := 0; n < 10000; n++)
        if (armstrong(n))
            sys->print("%d\n", n);
    sys->print("54748: %d, 54749: %d, 92727: %d, 548834: %d\n",
        armstrong(54748), armstrong(54749), armstrong(92727), armstrong(548834));
}
