implement Lcg;
include "sys.m"; sys: Sys;
include "draw.m";
Lcg: module { init: fn(ctxt: ref Draw->Context, argv: list of string); };

# Linear congruential generators: one that wraps ints, one with a modulus, one with bigs.

x: int;
y := 1;
z: big;

ansi(): int
{
	x = x * 1103515245 + 12345;
	return x >> 16 & 16r7fff;
}

minimal(): int
{
	# Schrage's way to stay within an int
	y = 16807 * (y % 127773) - 2836 * (y / 127773);
	if (y <= 0)
		y += 2147483647;
	return y;
}

knuth(): int
{
	z = z * 6364136223846793005 + 1442695040888963407;
	return int (z >> 33);
}

init(nil: ref Draw->Context, nil: list of string)
{
	sys = load Sys Sys->PATH;
	x = 1;
	z = big 42;
	for (i := 0; i < 15; i++)
		sys->print("%d %d %d\n", ansi(), minimal(), knuth());
	for (i = 15; i < 10000; i++)
		minimal();
	sys->print("the 10000th is %d\n", y);
}
