implement ManyParams;

include "sys.m";
	sys: Sys;

include "draw.m";

ManyParams: module
{
	init: fn(nil: ref Draw->Context, nil: list of string);
};

# Functions with many parameters of mixed types, and calls within their arguments.

ten(a, b, c, d, e, f, g, h, i, j: int): int
{
	return a + 2*b + 3*c + 4*d + 5*e + 6*f + 7*g + 8*h + 9*i + 10*j;
}

mixed(a: byte, b: int, c: big, d: byte, e: big, f: int, g: byte): big
{
	return big a + big b * big 1000 + c - big d + e * big f + big g;
}

swap(a: int, b: int, n: int): int
{
	if (n == 0)
		return 10 * a + b;
	return swap(b, a, n - 1);
}

none(): int { return 7; }

horner(x, a, b, c, d: int): int { return ((a * x + b) * x + c) * x + d; }

init(nil: ref Draw->Context, nil: list of string)
{
	sys = load Sys Sys->PATH;
	sys->print("%d\n", ten(1, 2, 3, 4, 5, 6, 7, 8, 9, 10));
	sys->print("%d\n", ten(none(), ten(1, 0, 0, 0, 0, 0, 0, 0, 0, 0), 0, swap(1, 2, 3), 0, 0, none() + none(), 0, 0,
		ten(0, 0, 0, 0, 0, 0, 0, 0, 0, ten(0, 0, 0, 0, 0, 0, 0, 0, 1, 0))));
	sys->print("%bd\n", mixed(byte 255, -12, 5000000000, byte 300, big -3, 7, byte 'a'));
	sys->print("%bd\n", mixed(byte 1, 2, mixed(byte 0, 0, big 9, byte 0, big 0, 0, byte 0), byte 4, big 5,
		int mixed(byte 1, 0, big 1, byte 0, big 0, 0, byte 4), byte 7));
	sys->print("%d %d\n", swap(3, 4, 10), swap(3, 4, 11));
	sys->print("%d %d\n", horner(10, 1, 2, 3, 4), horner(-2, 1, -1, horner(0, 0, 0, 0, 5), none()));
}
