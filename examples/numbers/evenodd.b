implement EvenOdd;

include "sys.m";
	sys: Sys;

include "draw.m";

EvenOdd: module
{
	init: fn(nil: ref Draw->Context, nil: list of string);
};

# Mutual recursion: even and odd, and a machine of three states that accepts multiples of three.

even(n: int): int
{
	if (n == 0) return 1;
	return odd(n - 1);
}

odd(n: int): int
{
	if (n == 0) return 0;
	return even(n - 1);
}

# the binary digits of n from the top one on
zero(n, bit: int): int
{
	if (bit < 0) return 1;
	if (n >> bit & 1) return one(n, bit - 1);
	return zero(n, bit - 1);
}

one(n, bit: int): int
{
	if (bit < 0) return 0;
	if (n >> bit & 1) return zero(n, bit - 1);
	return two(n, bit - 1);
}

two(n, bit: int): int
{
	if (bit < 0) return 0;
	if (n >> bit & 1) return two(n, bit - 1);
	return one(n, bit - 1);
}

init(nil: ref Draw->Context, nil: list of string)
{
	sys = load Sys Sys->PATH;
	for (i := 0; i < 10; i++)
		sys->print("%d: %d %d\n", i, even(i), odd(i));
	sys->print("%d %d\n", even(7001), odd(7001));
	n := 0;
	for (i = 0; i < 1000; i++) {
		if (zero(i, 30) != (i % 3 == 0))
			sys->print("%d is wrong\n", i);
		n += zero(i, 30);
	}
	sys->print("%d multiples of three\n", n);
}
