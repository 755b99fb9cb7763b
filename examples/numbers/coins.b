implement Coins;

include "sys.m";
sys: Sys;
include "draw.m";

Coins: module {
    init: fn(ctxt: ref Draw->Context, argv: list of string);
};

# Ways to change money into coins, by recursion over the kinds of coins, and the fewest coins.

coin(kind: int): int {
    if (kind == 0) return 1;
    if (kind == 1) return 2;
    if (kind == 2) return 5;
    if (kind == 3) return 10;
    if (kind == 4) return 20;
    if (kind == 5) return 50;
    return 100;
}

ways(amount, kinds: int): int {
    if (amount == 0)
        return 1;
    if (amount < 0 || kinds == 0)
        return 0;
    return ways(amount, kinds - 1) + ways(amount - coin(kinds - 1), kinds);
}

fewest(amount: int): int {
    count := 0;
    for (k := 6; k >= 0; k--) {
        count += amount / coin(k);
        amount %= coin(k);
    }
    return count;
}

init(nil: ref Draw->Context, nil: list of string) {
    sys = load Sys Sys->PATH;
    for (a := 0; a <= 100; a += 5)
        sys->print("%d: %d ways, at least %d coins\n", a, ways(a, 7), fewest(a));
    sys->print("17 with 3 kinds: %d\n", ways(17, 3));
    worst := 0;
    for (a = 1; a < 100; a++)
        if (fewest(a) > fewest(worst))
            worst = a;
    sys->print("most coins below 100: %d\n", worst);
}
