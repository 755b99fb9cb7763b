implement Hofstadter;

include "sys.m";
sys: Sys;
include "draw.m";

Hofstadter: module {
    init: fn(ctxt: ref Draw->Context, argv: list of string);
};

# Hofstadter's sequences G, H, and female and male, which call one another.

gee(n: int): int {
    if (n == 0)
        return 0;
    return n - gee(gee(n - 1));
}

aitch(n: int): int {
    if (n == 0)
        return 0;
    return n - aitch(aitch(aitch(n - 1)));
}

female(n: int): int {
    if (n == 0)
        return 1;
    return n - male(female(n - 1));
}

male(n: int): int {
    if (n == 0)
        return 0;
    return n - female(male(n - 1));
}

queue(n: int): int {
    if (n <= 2)
        return 1;
    return queue(n - queue(n - 1)) + queue(n - queue(n - 2));
}

init(nil: ref Draw->Context, nil: list of string) {
    sys = load Sys Sys->PATH;
    for (n := 0; n <= 16; n++)
        sys->print("%d: %d %d %d %d\n", n, gee(n), aitch(n), female(n), male(n));
    for (n = 1; n <= 16; n++)
        sys->print("%d ", queue(n));
    sys->print("\n");
}
