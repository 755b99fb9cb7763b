implement EmptyParts;

include "sys.m";
sys: Sys;
include "draw.m";

EmptyParts: module {
    init: fn(ctxt: ref Draw->Context, argv: list of string);
};

# Loops with parts left out: no beginning, no condition, no step, no body.

init(nil: ref Draw->Context, nil: list of string) {
    sys = load Sys Sys->PATH;
    i := 0;
    for (;;) {
        if (i == 5)
            break;
        sys->print("%d ", i++);
    }
    for (; i < 10;)
        sys->print("%d ", i++);
    for (; i < 15; i++)
        sys->print("%d ", i);
    for (i = 20; ; i--) {
        if (i < 15) break;
        sys->print("%d ", i);
    }
    sys->print("\n");
    for (j := 0; j * j < 2000; j++)
        ;
    sys->print("%d\n", j);
    while ((j -= 7) > 0)
        ;
    sys->print("%d\n", j);
    for (k := 1; k < 100; k *= 3)
        {}
    sys->print("%d\n", k);
    while (0)
        sys->print("never\n");
    do ; while (++k % 10 != 0);
    sys->print("%d\n", k);
    ;;
    for (n := 10; n--; )
        sys->print("%d", n);
    sys->print("\n");
    while () {
        if (k++ > 100)
            break;
    }
    sys->print("%d\n", k);
}
