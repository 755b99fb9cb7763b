implement Gcd;
include "sys.m";
	sys: Sys;
include "draw.m";
Gcd: module
{
	init:	fn(ctxt: ref Draw->Context, argv: list of string);
};

# Greatest common divisors by Euclid's algorithm, with remainders and with differences.
init(nil: ref Draw->Context, nil: list of string)
{
	sys = load Sys Sys->PATH;
	show(12, 18);
	show(1071, 462);
	show(17, 5);
	show(1000000, 65536);
	show(0, 9);
	show(9, 0);
	show(2147483646, 1073741823);
	for (a := 1; a <= 12; a++) {
		for (b := 1; b <= 12; b++)
			sys->print("%d ", gcd(a, b));
		sys->print("\n");
	}
	sys->print("by differences: %d %d %d\n", slow(48, 36), slow(1001, 77), slow(99, 98));
}

gcd(a, b: int): int
{
	while (b != 0) {
		t := a % b;
		a = b;
		b = t;
	}
	return a;
}

slow(a, b: int): int
{
	while (a != b) {
		if (a > b)
			a -= b;
		else
			b -= a;
	}
	return a;
}

show(a, b: int)
{
	sys->print("gcd(%d, %d) = %d\n", a, b, gcd(a, b));
}
