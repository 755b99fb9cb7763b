implement TimesTable;

include "sys.m";
sys: Sys;
include "draw.m";

TimesTable: module {
    init: fn(ctxt: ref Draw->Context, argv: list of string);
};

# A multiplication table with right columns, and which digits the products end in.

width: con 4;

column(n: int) {
    w := 1;
    for (m := n; m >= 10; m /= 10)
        w++;
    for (; w < width; w++)
        sys->print(" ");
    sys->print("%d", n);
}

init(nil: ref Draw->Context, nil: list of string) {
    sys = load Sys Sys->PATH;
    sys->print("   x|");
    for (c := 1; c <= 12; c++)
        column(c);
    sys->print("\n");
    for (c = 0; c < 53; c++)
        if (c == 4)
            sys->print("+");
        else
            sys->print("-");
    sys->print("\n");
    for (r := 1; r <= 12; r++) {
        column(r);
        sys->print("|");
        for (c = 1; c <= 12; c++)
            column(r * c);
        sys->print("\n");
    }
    for (d := 0; d < 10; d++) {
        n := 0;
        for (r = 1; r <= 12; r++)
            for (c = 1; c <= 12; c++)
                n += r * c % 10 == d;
        sys->print("%d products end in %d\n", n, d);
    }
}
