implement NegDiv;
include "sys.m";
	sys: Sys;
include "draw.m";
NegDiv: module
{
	init:	fn(ctxt: ref Draw->Context, argv: list of string);
};

# Quotients and remainders of negative numbers, and the kinds that round down or are never negative.
init(nil: ref Draw->Context, nil: list of string)
{
	sys = load Sys Sys->PATH;
	for (a := -8; a <= 8; a += 4)
		for (b := -3; b <= 3; b++) {
			if (b == 0)
				continue;
			q := a / b;
			r := a % b;
			sys->print("%d/%d = %d rest %d", a, b, q, r);
			sys->print(", floor %d, mod %d\n", floor(a, b), mod(a, b));
			if (q * b + r != a)
				sys->print("wrong\n");
		}
	sys->print("%d %d\n", -7 / 2, -7 >> 1);
	sys->print("%d %d %d %d\n", 7 % 3, -7 % 3, 7 % -3, -7 % -3);
	least := 1 << 31;
	minus := -1;
	sys->print("%d %d\n", least / 10, least % 10);
	sys->print("%d %d %d\n", least / minus, least % minus, -least);
	sys->print("%d %d\n", least / 2147483647, 2147483647 / least);
}

floor(a, b: int): int
{
	q := a / b;
	if (a % b != 0 && (a < 0) != (b < 0))
		q--;
	return q;
}

mod(a, b: int): int
{
	r := a % b;
	if (r < 0) {
		if (b < 0)
			r -= b;
		else
			r += b;
	}
	return r;
}
