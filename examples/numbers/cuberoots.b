implement CubeRoots;

include "sys.m";
	sys: Sys;

include "draw.m";

CubeRoots: module
{
	init: fn(nil: ref Draw->Context, nil: list of string);
};

# Cube roots and other roots by Newton's method in integers.

iroot(n: big, k: int): big
{
	if (n < big 2)
		return n;
	# a start that is not below the root
	x := big 1;
	while (pow(x, k) <= n)
		x *= big 2;
	for (;;) {
		y := (big (k - 1) * x + n / pow(x, k - 1)) / big k;
		if (y >= x)
			return x;
		x = y;
	}
}

pow(x: big, k: int): big
{
	p := big 1;
	while (k-- > 0)
		p *= x;
	return p;
}

init(nil: ref Draw->Context, nil: list of string)
{
	sys = load Sys Sys->PATH;
	for (n := 0; n <= 130; n += 13)
		sys->print("cube root of %d: %bd\n", n, iroot(big n, 3));
	x := 1000000000000000;
	for (k := 1; k <= 10; k++)
		sys->print("%d: %bd\n", k, iroot(x, k));
	sys->print("taxicab: %bd %bd\n", iroot(big 1729, 3), iroot(big 1728, 3));
}
