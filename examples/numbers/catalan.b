implement Catalan;
include "sys.m";
	sys: Sys;
include "draw.m";
Catalan: module
{
	init:	fn(ctxt: ref Draw->Context, argv: list of string);
};

# Catalan numbers: by their quotient, by their sum, and by counting rightly nested brackets.
init(nil: ref Draw->Context, nil: list of string)
{
	sys = load Sys Sys->PATH;
	c := big 1;
	for (n := 0; n <= 33; n++) {
		sys->print("C(%d) = %bd", n, c);
		if (n <= 8)
			sys->print(" %d", sum(n));
		if (n <= 9)
			sys->print(" %d", brackets(n, 0));
		sys->print("\n");
		c = c * big (2 * (2*n + 1)) / big (n + 2);
	}
}

sum(n: int): int
{
	if (n == 0)
		return 1;
	s := 0;
	for (i := 0; i < n; i++)
		s += sum(i) * sum(n - 1 - i);
	return s;
}

# so many brackets are to be opened yet, and so many are open
brackets(left, open: int): int
{
	if (left == 0)
		return 1;
	ways := brackets(left - 1, open + 1);
	if (open > 0)
		ways += brackets(left, open - 1);
	return ways;
}
