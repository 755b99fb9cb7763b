implement McCarthy;
include "sys.m"; sys: Sys;
include "draw.m";
McCarthy: module { init: fn(ctxt: ref Draw->Context, argv: list of string); };

# McCarthy's function, which is 91 up to 101, and a loop that does the same.

mc(n: int): int
{
	if (n > 100)
		return n - 10;
	return mc(mc(n + 11));
}

loop(n: int): int
{
	waiting := 1;
	while (waiting > 0)
		if (n > 100) {
			n -= 10;
			waiting--;
		} else {
			n += 11;
			waiting++;
		}
	return n;
}

init(nil: ref Draw->Context, nil: list of string)
{
	sys = load Sys Sys->PATH;
	for (n := 85; n <= 110; n++)
		sys->print("%d: %d %d\n", n, mc(n), loop(n));
	s := 0;
	for (n = -200; n <= 100; n += 7)
		s += mc(n) + loop(n);
	sys->print("%d\n", s);
}
