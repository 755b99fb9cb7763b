implement Scopes;
include "sys.m";
	sys: Sys;
include "draw.m";
Scopes: module
{
	init:	fn(ctxt: ref Draw->Context, argv: list of string);
};

x: int = 1;
y := 2;

# Names in blocks hide those outside, and come back behind the block.
init(nil: ref Draw->Context, nil: list of string)
{
	sys = load Sys Sys->PATH;
	sys->print("%d %d\n", x, y);
	x := x + 10;
	sys->print("%d %d %d\n", x, y, global());
	{
		x := big x * big 100;
		y := byte 'A';
		sys->print("%bd %d\n", x, y);
		{
			x, y: int;
			x = 5;
			y = x + 1;
			sys->print("%d %d\n", x, y);
		}
		x++;
		sys->print("%bd\n", x);
	}
	sys->print("%d %d\n", x, y);
	for (i := 0; i < 3; i++) {
		k := i * i;
		n: int = k + 1;
		{
			i := 100 + k;
			sys->print("%d ", i);
		}
		sys->print("%d %d,", i, n);
	}
	sys->print(" %d\n", i);
	y = 20;
	sys->print("%d %d\n", global(), shadow(3));
	x = 77;
	sys->print("%d %d\n", x, global());
	if (x > y) {
		y := 0;
		y--;
		sys->print("%d\n", y);
	} else {
		y := 1;
		sys->print("%d\n", y);
	}
	sys->print("%d\n", y);
}

global(): int
{
	return x * 1000 + y;
}

shadow(x: int): int
{
	x *= x;
	if (x > 5) {
		y: con 9;
		return x * y;
	}
	return y;
}
