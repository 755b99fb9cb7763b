implement DayOfWeek;

include "sys.m";
sys: Sys;
include "draw.m";

DayOfWeek: module {
    init: fn(ctxt: ref Draw->Context, argv: list of string);
};

# Days of the week by Zeller's congruence, and Fridays that are a 13th.

weekday(d, m, y: int): int {
    # 0 is Saturday
    if (m < 3) {
        m += 12;
        y--;
    }
    return (d + 13 * (m + 1) / 5 + y + y / 4 - y / 100 + y / 400) % 7;
}

name(w: int) {
    if (w == 0) sys->print("Saturday");
    else if (w == 1) sys->print("Sunday");
    else if (w == 2) sys->print("Monday");
    else if (w == 3) sys->print("Tuesday");
    else if (w == 4) sys->print("Wednesday");
    else if (w == 5) sys->print("Thursday");
    else sys->print("Friday");
}

show(d, m, y: int) {
    sys->print("%d.%d.%d is a ", d, m, y);
    name(weekday(d, m, y));
    sys->print("\n");
}

init(nil: ref Draw->Context, nil: list of string) {
    sys = load Sys Sys->PATH;
    show(1, 1, 1900);
    show(20, 7, 1969);
    show(29, 2, 2000);
    show(31, 12, 1999);
    show(24, 2, 2026);
    show(1, 3, 2100);
    for (y := 2020; y < 2030; y++) {
        n := 0;
        for (m := 1; m <= 12; m++)
            if (weekday(13, m, y) == 6)
                n++;
        sys->print("%d: %d\n", y, n);
    }
}
