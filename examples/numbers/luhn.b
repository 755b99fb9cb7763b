implement Luhn;
include "sys.m"; sys: Sys;
include "draw.m";
Luhn: module { init: fn(ctxt: ref Draw->Context, argv: list of string); };

# Luhn's check digit, with bigs as numbers of cards.

check(n: big): int
{
	sum := 0;
	double := 0;
	while (n != big 0) {
		d := int (n % big 10);
		if (double) {
			d *= 2;
			if (d > 9)
				d -= 9;
		}
		sum += d;
		double = !double;
		n /= big 10;
	}
	return sum % 10 == 0;
}

digit(n: big): int
{
	for (d := 0; d < 10; d++)
		if (check(n * big 10 + big d))
			return d;
	return -1;
}

init(nil: ref Draw->Context, nil: list of string)
{
	sys = load Sys Sys->PATH;
	sys->print("%d %d\n", check(79927398713), check(79927398710));
	sys->print("%d %d\n", check(4539578763621486), check(4539578763621487));
	n := big 7992739871;
	for (i := 0; i < 12; i++) {
		sys->print("%bd-%d\n", n, digit(n));
		n = n * big 3 + big i;
	}
	valid := 0;
	for (i = 0; i < 5000; i++)
		valid += check(big i);
	sys->print("%d valid\n", valid);
}
