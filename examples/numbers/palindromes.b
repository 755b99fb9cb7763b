implement Palindromes;
include "sys.m";
	sys: Sys;
include "draw.m";
Palindromes: module
{
	init:	fn(ctxt: ref Draw->Context, argv: list of string);
};

# Palindromic numbers in bases 2 and 10, and how often reversing and adding takes to one.

reverse(n: big, base: int): big
{
	r := big 0;
	while (n > big 0) {
		r = r * big base + n % big base;
		n /= big base;
	}
	return r;
}

ispal(n: int, base: int): int
{
	return reverse(big n, base) == big n;
}

init(nil: ref Draw->Context, nil: list of string)
{
	sys = load Sys Sys->PATH;
	total := 0;
	for (i := 0; i < 10000; i++) {
		if (ispal(i, 10) && ispal(i, 2)) {
			sys->print("%d ", i);
			total += i;
		}
	}
	sys->print("sum %d\n", total);

	for (i = 80; i < 100; i++) {
		n := big i;
		steps := 0;
		while (n != reverse(n, 10)) {
			n += reverse(n, 10);
			steps++;
		}
		sys->print("%d: %bd after %d\n", i, n, steps);
	}
}
