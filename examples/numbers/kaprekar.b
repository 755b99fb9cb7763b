implement Kaprekar;
include "sys.m";
	sys: Sys;
include "draw.m";
Kaprekar: module
{
	init:	fn(ctxt: ref Draw->Context, argv: list of string);
};

# Kaprekar's routine: sorting four digits down and up, subtracting, to 6174.
init(nil: ref Draw->Context, nil: list of string)
{
	sys = load Sys Sys->PATH;
	n := 3524;
	while (n != 6174) {
		sys->print("%d ", n);
		n = step(n);
	}
	sys->print("%d\n", n);
	longest := 0;
	for (i := 1000; i < 10000; i += 13) {
		if (i % 1111 == 0)
			continue;
		k := 0;
		for (m := i; m != 6174; m = step(m))
			k++;
		if (k > longest) {
			longest = k;
			sys->print("%d takes %d\n", i, k);
		}
	}
	# numbers whose square's halves add up to them
	for (i = 1; i < 10000; i++) {
		square := big i * big i;
		for (p := big 10; p <= square * big 10; p *= big 10) {
			right := square % p;
			if (right > big 0 && square / p + right == big i) {
				sys->print("%d ", i);
				break;
			}
		}
	}
	sys->print("\n");
}

step(n: int): int
{
	a := n / 1000;
	b := n / 100 % 10;
	c := n / 10 % 10;
	d := n % 10;
	t: int;
	# sort the largest first
	if (a < b) { t = a; a = b; b = t; }
	if (c < d) { t = c; c = d; d = t; }
	if (a < c) { t = a; a = c; c = t; }
	if (b < d) { t = b; b = d; d = t; }
	if (b < c) { t = b; b = c; c = t; }
	return (a*1000 + b*100 + c*10 + d) - (d*1000 + c*100 + b*10 + a);
}
