implement Fibonacci;
include "sys.m";
	sys: Sys;
include "draw.m";
Fibonacci: module
{
	init:	fn(ctxt: ref Draw->Context, argv: list of string);
};

# Fibonacci numbers as ints, past the place where they wrap.
init(nil: ref Draw->Context, nil: list of string)
{
	sys = load Sys Sys->PATH;
	a, b: int;
	a = 0;
	b = 1;
	for (i := 0; i < 60; i++) {
		sys->print("%d: %d", i, a);
		if (a < 0)
			sys->print(" (wrapped)");
		sys->print("\n");
		c := a + b;
		a = b;
		b = c;
	}
	sys->print("recursive: %d\n", fib(20));
}

fib(n: int): int
{
	if (n < 2)
		return n;
	return fib(n-1) + fib(n-2);
}
