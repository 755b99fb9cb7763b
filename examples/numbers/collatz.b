implement Collatz;
include "sys.m";
	sys: Sys;
include "draw.m";
Collatz: module
{
	init:	fn(ctxt: ref Draw->Context, argv: list of string);
};

# How many steps numbers take to 1 by halving and 3n + 1, and which takes the most below 3000.
init(nil: ref Draw->Context, nil: list of string)
{
	sys = load Sys Sys->PATH;

	n := 27;
	while (n != 1) {
		sys->print("%d ", n);
		if (n % 2 == 0)
			n /= 2;
		else
			n = 3*n + 1;
	}
	sys->print("1\n");

	best := 0;
	most := 0;
	for (i := 1; i < 3000; i++) {
		s := steps(i);
		if (s > most) {
			most = s;
			best = i;
			sys->print("%d takes %d steps\n", best, most);
		}
	}
}

steps(n: int): int
{
	count := 0;
	while (n > 1) {
		if (n & 1)
			n = 3*n + 1;
		else
			n >>= 1;
		count++;
	}
	return count;
}
