implement MonteCarlo;
include "sys.m";
	sys: Sys;
include "draw.m";
MonteCarlo: module
{
	init:	fn(ctxt: ref Draw->Context, argv: list of string);
};

# Estimates pi by random points in a quarter of a circle, and by all points of a grid.
seed := 20260224;

random(): int
{
	seed = seed * 1664525 + 1013904223;
	return seed >> 20 & 1023;
}

init(nil: ref Draw->Context, nil: list of string)
{
	sys = load Sys Sys->PATH;
	inside := 0;
	n := 0;
	for (stop := 10; stop <= 10000; stop *= 10) {
		while (n < stop) {
			x := random();
			y := random();
			if (x * x + y * y < 1024 * 1024)
				inside++;
			n++;
		}
		sys->print("%d points: %d\n", n, int (big inside * big 4000 / big n));
	}
	inside = 0;
	r := 200;
	for (x := -r; x <= r; x++)
		for (y := -r; y <= r; y += 2)
			inside += x * x + y * y <= r * r;
	sys->print("grid: %d\n", inside * 2000 / (r * r));
}
