implement Lfsr;

include "sys.m";
sys: Sys;
include "draw.m";

Lfsr: module {
    init: fn(ctxt: ref Draw->Context, argv: list of string);
};

# Shift registers with feedback: their periods, and a stream of bits that hides a word.

state: int;

step(taps: int): int {
    out := state & 1;
    state = state >> 1 & 16r7FFFFFFF;
    if (out)
        state ^= taps;
    return out;
}

period(taps: int): int {
    state = 1;
    n := 0;
    do {
        step(taps);
        n++;
    } while (state != 1);
    return n;
}

eight(): int {
    v := 0;
    for (i := 0; i < 8; i++)
        v = v << 1 | step(16rB400);
    return v;
}

init(nil: ref Draw->Context, nil: list of string) {
    sys = load Sys Sys->PATH;
    sys->print("%d %d %d\n", period(2r110), period(2r1100), period(2r10100));
    sys->print("%d %d\n", period(16rB8), period(16rE08));
    sys->print("%d\n", period(16rB400));
    state = 16rACE1;
    for (i := 0; i < 40; i++)
        sys->print("%d", step(16rB400));
    sys->print("\n");
    state = 16rACE1;
    a := 'S' ^ eight();
    b := 'u' ^ eight();
    c := 'n' ^ eight();
    sys->print("%x %x %x\n", a, b, c);
    state = 16rACE1;
    sys->print("%c%c%c\n", a ^ eight(), b ^ eight(), c ^ eight());
}
