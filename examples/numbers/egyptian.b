implement Egyptian;
include "sys.m";
	sys: Sys;
include "draw.m";
Egyptian: module
{
	init:	fn(ctxt: ref Draw->Context, argv: list of string);
};

# Fractions as sums of different parts of one, by the greedy way, and the decimals of fractions.
init(nil: ref Draw->Context, nil: list of string)
{
	sys = load Sys Sys->PATH;
	egyptian(big 2, big 3);
	egyptian(big 6, big 7);
	egyptian(big 4, big 13);
	egyptian(big 7, big 15);
	egyptian(big 3, big 4);
	decimals(1, 7);
	decimals(22, 7);
	decimals(1, 8);
	decimals(5, 12);
	decimals(1, 81);
	decimals(1, 97);
}

egyptian(a, b: big)
{
	sys->print("%bd/%bd =", a, b);
	while (a != big 0) {
		n := (b + a - big 1) / a;
		sys->print(" 1/%bd", n);
		a = a * n - b;
		b *= n;
		g := gcd(a, b);
		a /= g;
		b /= g;
	}
	sys->print("\n");
}

gcd(a, b: big): big
{
	if (b == big 0)
		return a;
	return gcd(b, a % b);
}

decimals(a, b: int)
{
	sys->print("%d/%d = %d.", a, b, a / b);
	# how many digits precede the period: until b has nothing in common with ten
	before := 0;
	c := big b;
	while ((g := gcd(c, big 10)) != big 1) {
		c /= g;
		before++;
	}
	r := a % b;
	while (before-- > 0) {
		r *= 10;
		sys->print("%d", r / b);
		r %= b;
	}
	if (r != 0) {
		sys->print("(");
		start := r;
		do {
			r *= 10;
			sys->print("%d", r / b);
			r %= b;
		} while (r != start);
		sys->print(")");
	}
	sys->print("\n");
}
