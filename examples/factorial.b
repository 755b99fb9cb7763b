implement Factorial;
include "sys.m";
	sys: Sys;
include "draw.m";
Factorial: module
{
	init:	fn(ctxt: ref Draw->Context, argv: list of string);
};

# The numbers up to 12, and their factorials; from 13 on they pass an int.
init(nil: ref Draw->Context, nil: list of string)
{
	sys = load Sys Sys->PATH;
	n := 1;
	while (n < 13) {
		sys->print("%d! = %d\n", n, factorial(n));
		n = n + 1;
	}
}

factorial(n: int): int
{
	if (n < 2)
		return 1;
	return n * factorial(n - 1);
}
