implement OpAssign;
include "sys.m";
	sys: Sys;
include "draw.m";
OpAssign: module
{
	init:	fn(ctxt: ref Draw->Context, argv: list of string);
};

x: int;
big1: big;
small: byte;

# `x op= f()` where f changes x: the old x counts. Each operator, on ints, bigs and bytes.
f(v: int): int
{
	x = 1000;
	return v;
}

g(v: big): big
{
	big1 = big -1;
	return v;
}

h(v: byte): byte
{
	small++;
	return v;
}

next(v: int): int
{
	sys->print("%d ", x);
	return v;
}

init(nil: ref Draw->Context, nil: list of string)
{
	sys = load Sys Sys->PATH;
	n := 0;
	x = 40;
	x += f(2); n = next(37);
	x = n;
	x -= f(2); n = next(35);
	x = n;
	x *= f(3); n = next(100);
	x = n;
	x /= f(7); n = next(100);
	x = n;
	x %= f(7); n = next(12);
	x = n;
	x &= f(10); n = next(12);
	x = n;
	x |= f(3); n = next(12);
	x = n;
	x ^= f(5); n = next(3);
	x = n;
	x <<= f(4); n = next(-100);
	x = n;
	x >>= f(3); next(0);
	sys->print("\n");

	big1 = big 6;
	big1 += g(big 1 << 40);
	sys->print("%bd ", big1);
	big1 *= g(big1);
	sys->print("%bd ", big1);
	big1 = big 77;
	big1 -= g(big1) - big1;
	sys->print("%bd\n", big1);

	small = byte 250;
	small += h(byte 10);
	sys->print("%d ", small);
	small *= h(small) + small;
	sys->print("%d\n", small);

	y := 5;
	y += y++;
	sys->print("%d ", y);
	y += (y = 1) + y;
	sys->print("%d ", y);
	y *= ++y;
	sys->print("%d ", y);
	y -= y -= y / 2;
	sys->print("%d\n", y);
}
