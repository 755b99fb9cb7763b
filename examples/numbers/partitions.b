implement Partitions;
include "sys.m";
	sys: Sys;
include "draw.m";
Partitions: module
{
	init:	fn(ctxt: ref Draw->Context, argv: list of string);
};

# Partitions of numbers: counted, and those of 6 and 7 written out by digits.
init(nil: ref Draw->Context, nil: list of string)
{
	sys = load Sys Sys->PATH;
	for (n := 0; n <= 25; n++)
		sys->print("p(%d) = %d, distinct %d\n", n, parts(n, n), distinct(n, n));
	write(6, 6, 0);
	sys->print("\n");
	write(7, 4, 0);
	sys->print("\n");
}

# with parts up to m
parts(n, m: int): int
{
	if (n == 0)
		return 1;
	if (n < 0 || m == 0)
		return 0;
	return parts(n, m - 1) + parts(n - m, m);
}

distinct(n, m: int): int
{
	if (n == 0)
		return 1;
	if (n < 0 || m == 0)
		return 0;
	return distinct(n, m - 1) + distinct(n - m, m - 1);
}

write(n, m, sofar: int)
{
	if (n == 0) {
		sys->print("%d ", sofar);
		return;
	}
	if (m > n)
		m = n;
	while (m > 0) {
		write(n - m, m, sofar * 10 + m);
		m--;
	}
}
