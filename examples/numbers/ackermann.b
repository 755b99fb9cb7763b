implement Ackermann;
include "sys.m";
	sys: Sys;
include "draw.m";
Ackermann: module
{
	init:	fn(ctxt: ref Draw->Context, argv: list of string);
};

calls: int;
depth, deepest: int;

# The function of Ackermann, with the calls counted and the greatest depth.
ackermann(m, n: int): int
{
	calls++;
	depth++;
	if (depth > deepest)
		deepest = depth;
	r: int;
	if (m == 0)
		r = n + 1;
	else if (n == 0)
		r = ackermann(m - 1, 1);
	else
		r = ackermann(m - 1, ackermann(m, n - 1));
	depth--;
	return r;
}

init(nil: ref Draw->Context, nil: list of string)
{
	sys = load Sys Sys->PATH;
	for (m := 0; m <= 3; m++)
		for (n := 0; n <= 4; n++) {
			calls = 0;
			deepest = 0;
			sys->print("A(%d,%d) = %d", m, n, ackermann(m, n));
			sys->print(" in %d calls, depth %d\n", calls, deepest);
		}
}
