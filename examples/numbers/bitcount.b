implement BitCount;
include "sys.m";
	sys: Sys;
include "draw.m";
BitCount: module
{
	init:	fn(ctxt: ref Draw->Context, argv: list of string);
};

# Counts the bits of ints and bigs in several ways.
init(nil: ref Draw->Context, nil: list of string)
{
	sys = load Sys Sys->PATH;
	show(0);
	show(1);
	show(255);
	show(-1);
	show(-2);
	show(16r12345678);
	show(16r80000000);
	show(1431655765);
	sys->print("big: %d %d %d\n", countbig(big -1), countbig(big 1 << 63), countbig(1234567890123456789));
	total := 0;
	for (i := 0; i < 1024; i++)
		total += trick(i);
	sys->print("bits of all numbers below 1024: %d\n", total);
}

show(n: int)
{
	sys->print("%x: %d %d %d\n", n, loop(n), trick(n), fold(n));
}

loop(n: int): int
{
	c := 0;
	for (i := 0; i < 32; i++)
		c += (n >> i) & 1;
	return c;
}

trick(n: int): int
{
	c := 0;
	while (n) {
		n &= n - 1;
		c++;
	}
	return c;
}

fold(n: int): int
{
	n = n - ((n >> 1) & 16r55555555);
	n = (n & 16r33333333) + ((n >> 2) & 16r33333333);
	n = (n + (n >> 4)) & 16r0F0F0F0F;
	return (n * 16r01010101) >> 24;
}

countbig(n: big): int
{
	c := 0;
	while (n != big 0) {
		n &= n - big 1;
		c++;
	}
	return c;
}
