implement EarlyReturn;

include "sys.m";
sys: Sys;
include "draw.m";

EarlyReturn: module {
    init: fn(ctxt: ref Draw->Context, argv: list of string);
};

# Returns from the midst of loops and branches.

repeated(n: int): int {
    for (; n > 9; n /= 10)
        for (m := n / 10; m > 0; m /= 10)
            if (n % 10 == m % 10)
                return n % 10;
    return -1;
}

digitat(n, place: int): int {
    if (n < 0)
        return digitat(-n, place);
    while (1) {
        if (place-- == 0)
            return n % 10;
        n /= 10;
        if (n == 0)
            return -1;
    }
}

sign(n: big): int {
    if (n < big 0)
        return -1;
    else if (n > big 0)
        return 1;
    else
        return 0;
}

pair(sum, product: int): int {
    for (a := 0; a <= sum; a++)
        for (b := a; b <= sum; b++) {
            if (a + b == sum && a * b == product)
                return 1000 * a + b;
            if (a * b > product)
                break;
        }
    return -1;
}

grade(points: int): int {
    if (points >= 90) return 'A';
    if (points >= 80) return 'B';
    if (points >= 70) return 'C';
    return 'F';
}

init(nil: ref Draw->Context, nil: list of string) {
    sys = load Sys Sys->PATH;
    for (n := 1000; n < 1010; n++)
        sys->print("%d: %d\n", n * 321, repeated(n * 321));
    for (p := 0; p < 7; p++)
        sys->print("%d ", digitat(-31415, p));
    sys->print("\n%d %d %d\n", sign(big -5), sign(big 0), sign(big 1 << 62));
    sys->print("%d %d %d\n", pair(10, 21), pair(7, 12), pair(5, 100));
    sys->print("%c%c%c%c\n", grade(95), grade(80), grade(79), grade(-1));
    if (n > 0)
        return;
    sys->print("not reached\n");
}
