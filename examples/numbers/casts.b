implement Casts;

include "sys.m";
	sys: Sys;

include "draw.m";

Casts: module
{
	init: fn(nil: ref Draw->Context, nil: list of string);
};

# Conversions between byte, int and big, in expressions and with signs.

show(n: int)
{
	sys->print("%d: byte %d, big %bd, back %d", n, byte n, big n, int big n);
	sys->print(", int of byte %d, big of byte %bd, byte of big %d\n", int byte n, big byte n, byte big n);
}

cut(n: big)
{
	sys->print("%bd: int %d, byte %d, %d\n", n, int n, byte n, byte int n);
}

init(nil: ref Draw->Context, nil: list of string)
{
	sys = load Sys Sys->PATH;
	show(0); show(255); show(256); show(-1); show(65537); show(-129); show(16r80000000);
	cut(big 1 << 31); cut(big 1 << 32); cut((big 1 << 40) + big 200); cut(-5000000000); cut(big -1);
	cut(1311768467463790320);
	# a conversion binds tighter than a product
	sys->print("%bd %bd\n", big 2147483647 * big 2, big (2147483647 * 2));
	sys->print("%d %d\n", int byte 200 + int byte 100, int (byte 200 + byte 100));
	sys->print("%d %d\n", -int byte 200, int -byte 200);
	sys->print("%d %d %d\n", byte 'a' + byte 1, 'a' + 1, int byte ('a' * 3));
	signed := int byte -56;
	if (signed > 127)
		signed -= 256;
	sys->print("%d %d\n", signed, int byte -56 << 24 >> 24);
	n := 1000;
	b := byte n;
	n = int b * int b;
	sys->print("%d %d\n", b, n);
}
