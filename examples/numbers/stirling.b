implement Stirling;

include "sys.m";
	sys: Sys;

include "draw.m";

Stirling: module
{
	init: fn(nil: ref Draw->Context, nil: list of string);
};

# Stirling numbers of both kinds, and those of Euler and Bell.

first(n, k: int): int
{
	if (n == 0 || k == 0)
		return n == k;
	return first(n - 1, k - 1) + (n - 1) * first(n - 1, k);
}

second(n, k: int): int
{
	if (n == 0 || k == 0)
		return n == k;
	return second(n - 1, k - 1) + k * second(n - 1, k);
}

euler(n, k: int): int
{
	if (k < 0 || k >= n)
		return n == 0 && k == 0;
	return (k + 1) * euler(n - 1, k) + (n - k) * euler(n - 1, k - 1);
}

init(nil: ref Draw->Context, nil: list of string)
{
	sys = load Sys Sys->PATH;
	for (n := 0; n <= 9; n++) {
		bell := facts := 0;
		for (k := 0; k <= n; k++) {
			a := first(n, k);
			b := second(n, k);
			facts += a;
			bell += b;
			sys->print("%d/%d/%d ", a, b, euler(n, k));
		}
		sys->print("= %d %d\n", facts, bell);
	}
}
