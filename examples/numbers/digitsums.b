implement DigitSums;

include "sys.m";
	sys: Sys;

include "draw.m";

DigitSums: module
{
	init: fn(nil: ref Draw->Context, nil: list of string);
};

# Sums of digits, digital roots, and numbers that their digit sums divide.

sum(n: int): int
{
	s: int = 0;
	while (n) {
		s += n % 10;
		n /= 10;
	}
	return s;
}

digroot(n: int): int
{
	while (n > 9)
		n = sum(n);
	return n;
}

init(nil: ref Draw->Context, nil: list of string)
{
	sys = load Sys Sys->PATH;
	x := 1;
	while (x < 500000000) {
		sys->print("%d: sum %d, root %d\n", x, sum(x), digroot(x));
		x = x * 4 + 3;
	}
	sys->print("negative: %d %d\n", sum(-1234), sum(-7));
	n := 0;
	for (i := 1; n < 40; i++)
		if (i % sum(i) == 0) {
			sys->print("%d ", i);
			n++;
		}
	sys->print("\n");
}
