implement Josephus;
include "sys.m";
	sys: Sys;
include "draw.m";
Josephus: module
{
	init:	fn(ctxt: ref Draw->Context, argv: list of string);
};

# The last of n people in a circle, of whom each k-th goes: by recursion, by a loop, and by bits for k = 2.
init(nil: ref Draw->Context, nil: list of string)
{
	sys = load Sys Sys->PATH;
	for (n := 1; n <= 16; n++)
		sys->print("n=%d: %d %d\n", n, last(n, 2), bybits(n));
	for (k := 1; k < 10; k++)
		sys->print("41 people, each %d: number %d, also %d\n", k, last(41, k), loop(41, k));
	sys->print("5000 people: %d\n", last(5000, 3));
}

last(n, k: int): int
{
	return zero(n, k) + 1;
}

zero(n, k: int): int
{
	if (n == 1)
		return 0;
	return (zero(n - 1, k) + k) % n;
}

loop(n, k: int): int
{
	r := 0;
	for (i := 2; i <= n; i++)
		r = (r + k) % i;
	return ++r;
}

bybits(n: int): int
{
	top := 1;
	while (top << 1 <= n)
		top <<= 1;
	return (n ^ top) << 1 | 1;
}
