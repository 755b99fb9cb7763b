implement Deep;
include "sys.m";
	sys: Sys;
include "draw.m";
Deep: module
{
	init:	fn(ctxt: ref Draw->Context, argv: list of string);
};

# Recursion some thousand calls deep.
init(nil: ref Draw->Context, nil: list of string)
{
	sys = load Sys Sys->PATH;
	sys->print("%d\n", sum(8000));
	sys->print("%bd\n", bigsum(big 7000, big 0));
	sys->print("%d\n", count(8500));
	for (i := 1000; i <= 5000; i += 1000)
		sys->print("%d %d\n", i, sum(i) - i * (i + 1) / 2);
	down(3000);
	sys->print("depth %d, then %d\n", deepest, depth);
}

depth, deepest: int;

sum(n: int): int
{
	if (n == 0)
		return 0;
	return n + sum(n - 1);
}

bigsum(n, acc: big): big
{
	if (n == big 0)
		return acc;
	return bigsum(n - big 1, acc + n * n * n);
}

count(n: int): int
{
	m := n - 1;
	if (m < 0)
		return 0;
	a := count(m);
	if (n % 3 == 0)
		a++;
	return a;
}

down(n: int)
{
	depth++;
	if (depth > deepest)
		deepest = depth;
	if (n > 1)
		down(n - 1);
	if (n % 1000 == 0)
		sys->print("back at %d\n", n);
	depth--;
}
