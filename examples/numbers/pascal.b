implement Pascal;

include "sys.m";
sys: Sys;
include "draw.m";

Pascal: module {
    init: fn(ctxt: ref Draw->Context, argv: list of string);
};

# Pascal's triangle by binomials, centred, and how many of its numbers are odd.

init(nil: ref Draw->Context, nil: list of string) {
    sys = load Sys Sys->PATH;
    rows: con 13;
    for (n := 0; n < rows; n++) {
        pad(3 * (rows - 1 - n));
        c := 1;
        for (k := 0; k <= n; k++) {
            number(c);
            c = c * (n - k) / (k + 1);
        }
        sys->print("\n");
    }
    odd := 0;
    total := 0;
    for (n = 0; n < 64; n++)
        for (k := 0; k <= n; k++) {
            total++;
            if ((n & k) == k)
                odd++;
        }
    sys->print("odd: %d of %d\n", odd, total);
}

pad(n: int) {
    for (i := 0; i < n; i++)
        sys->print(" ");
}

number(c: int) {
    written: int;
    if (c < 10) written = 1;
    else if (c < 100) written = 2;
    else if (c < 1000) written = 3;
    else written = 4;
    pad(6 - written);
    sys->print("%d", c);
}
