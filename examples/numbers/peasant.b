implement Peasant;
include "sys.m"; sys: Sys;
include "draw.m";
Peasant: module { init: fn(ctxt: ref Draw->Context, argv: list of string); };

# Russian peasants' products, and quotients bit by bit, without * and /.

times(a, b: int): int
{
	p := 0;
	minus := b < 0;
	if (minus)
		b = -b;
	for (; b > 0; b >>= 1) {
		if (b & 1)
			p += a;
		a += a;
	}
	if (minus)
		return -p;
	return p;
}

quotient, rest: int;

divide(a, b: int)
{
	quotient = rest = 0;
	for (i := 31; i >= 0; i--) {
		rest = rest << 1 | a >> i & 1;
		quotient <<= 1;
		if (rest >= b) {
			rest -= b;
			quotient++;
		}
	}
}

add(a, b: int): int
{
	while (b) {
		carry := a & b;
		a ^= b;
		b = carry << 1;
	}
	return a;
}

init(nil: ref Draw->Context, nil: list of string)
{
	sys = load Sys Sys->PATH;
	sys->print("%d %d %d %d\n", times(13, 24), times(-13, 24), times(13, -24), times(-13, -24));
	sys->print("%d %d\n", times(65536, 65536), times(123456, 7890));
	divide(1000, 7);
	sys->print("%d %d\n", quotient, rest);
	divide(2147483647, 65537);
	sys->print("%d %d\n", quotient, rest);
	sys->print("%d %d %d\n", add(123, 456), add(-5, 3), add(2147483647, 1));
	wrong := 0;
	for (a := -20; a <= 20; a++)
		for (b := -20; b <= 20; b++) {
			if (times(a, b) != a * b || add(a, b) != a + b)
				wrong++;
			if (a >= 0 && b > 0) {
				divide(a, b);
				if (quotient != a / b || rest != a % b)
					wrong++;
			}
		}
	sys->print("wrong: %d\n", wrong);
}
