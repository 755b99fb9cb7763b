implement Life;

include "sys.m";
sys: Sys;
include "draw.m";

Life: module {
    init: fn(ctxt: ref Draw->Context, argv: list of string);
};

# Conway's game of life on a ring of 8 by 8 cells, which are the bits of a big.

cell(w: big, x, y: int): int {
    return int (w >> ((y & 7) << 3 | x & 7) & big 1);
}

set(w: big, x, y: int): big {
    return w | big 1 << ((y & 7) << 3 | x & 7);
}

next(w: big): big {
    n := big 0;
    for (y := 0; y < 8; y++)
        for (x := 0; x < 8; x++) {
            around := 0;
            for (dy := -1; dy <= 1; dy++)
                for (dx := -1; dx <= 1; dx++)
                    if (dx != 0 || dy != 0)
                        around += cell(w, x + dx, y + dy);
            if (around == 3 || around == 2 && cell(w, x, y))
                n = set(n, x, y);
        }
    return n;
}

show(w: big) {
    for (y := 0; y < 8; y++) {
        for (x := 0; x < 8; x++)
            if (cell(w, x, y))
                sys->print("O");
            else
                sys->print(".");
        sys->print("\n");
    }
    sys->print("%bd\n", w);
}

init(nil: ref Draw->Context, nil: list of string) {
    sys = load Sys Sys->PATH;
    glider := set(set(set(set(set(big 0, 1, 0), 2, 1), 0, 2), 1, 2), 2, 2);
    w := glider;
    for (t := 0; t <= 8; t++) {
        sys->print("turn %d\n", t);
        show(w);
        w = next(w);
    }
    while (w != glider) {
        w = next(w);
        t++;
    }
    sys->print("back at %d\n", t);
}
