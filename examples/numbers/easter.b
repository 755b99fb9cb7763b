implement Easter;
include "sys.m"; sys: Sys;
include "draw.m";
Easter: module { init: fn(ctxt: ref Draw->Context, argv: list of string); };

# The Sunday of Easter by the anonymous Gregorian algorithm.

easter(y: int): int
{
	a := y % 19;
	b := y / 100;
	c := y % 100;
	d := b / 4;
	e := b % 4;
	f := (b + 8) / 25;
	g := (b - f + 1) / 3;
	h := (19*a + b - d - g + 15) % 30;
	i := c / 4;
	k := c % 4;
	l := (32 + 2*e + 2*i - h - k) % 7;
	m := (a + 11*h + 22*l) / 451;
	x := h + l - 7*m + 114;
	return x / 31 * 100 + x % 31 + 1;
}

init(nil: ref Draw->Context, nil: list of string)
{
	sys = load Sys Sys->PATH;
	first := 1231;
	last := 101;
	for (y := 1990; y < 2050; y++) {
		d := easter(y);
		if (d < first) first = d;
		if (d > last) last = d;
		sys->print("%d: ", y);
		if (d / 100 == 3)
			sys->print("March");
		else
			sys->print("April");
		sys->print(" %d\n", d % 100);
	}
	sys->print("from %d to %d\n", first, last);
}
