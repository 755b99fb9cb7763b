implement Xorshift64;

include "sys.m";
sys: Sys;
include "draw.m";

Xorshift64: module {
    init: fn(ctxt: ref Draw->Context, argv: list of string);
};

# Xorshift with the 64 bits of a big, and dice made of it.

state := big 88172645463325252;

next(): big {
    state ^= state << 13;
    state ^= state >> 7 & 16r01FFFFFFFFFFFFFF;
    state ^= state << 17;
    return state;
}

# a number from 1 to n
roll(n: int): int {
    return int ((next() >> 1 & 16r7FFFFFFFFFFFFFFF) % big n) + 1;
}

init(nil: ref Draw->Context, nil: list of string) {
    sys = load Sys Sys->PATH;
    for (i := 0; i < 10; i++)
        sys->print("%bd\n", next());
    ones, twos, threes, fours, fives, sixes: int = 0;
    for (i = 0; i < 6000; i++) {
        d := roll(6);
        if (d == 1) ones++;
        else if (d == 2) twos++;
        else if (d == 3) threes++;
        else if (d == 4) fours++;
        else if (d == 5) fives++;
        else sixes++;
    }
    sys->print("%d %d %d %d %d %d\n", ones, twos, threes, fours, fives, sixes);
}
