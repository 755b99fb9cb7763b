implement Bytes;
include "sys.m";
	sys: Sys;
include "draw.m";
Bytes: module
{
	init:	fn(ctxt: ref Draw->Context, argv: list of string);
};

# How bytes wrap: sums, differences, products, quotients, shifts, negatives and complements.
init(nil: ref Draw->Context, nil: list of string)
{
	sys = load Sys Sys->PATH;
	b := byte 250;
	for (i := 0; i < 10; i++) {
		sys->print("%d ", b);
		b++;
	}
	sys->print("\n");
	b = byte 3;
	for (i = 0; i < 10; i++) {
		sys->print("%d ", b);
		b -= byte 1;
	}
	sys->print("\n");
	table(byte 200, byte 100);
	table(byte 7, byte 9);
	table(byte 255, byte 255);
	table(byte -1, byte 2);
	table(byte 300, byte 3);
	c := byte 1;
	while (c != byte 0) {
		sys->print("%d ", c);
		c <<= 1;
	}
	sys->print("\n");
	c = byte 16r80;
	do
		sys->print("%d ", c);
	while ((c >>= 1) > byte 0);
	sys->print("\n");
}

table(x, y: byte)
{
	sys->print("%d %d: + %d - %d * %d / %d %% %d ", x, y, x + y, x - y, x * y, x / y, x % y);
	sys->print("& %d | %d ^ %d ~ %d neg %d ", x & y, x | y, x ^ y, ~x, -x);
	sys->print("<< %d >> %d < %d > %d == %d\n", x << 3, x >> 3, x < y, x > y, x == y);
}
