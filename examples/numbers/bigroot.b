implement BigRoot;

include "sys.m";
	sys: Sys;

include "draw.m";

BigRoot: module
{
	init: fn(nil: ref Draw->Context, nil: list of string);
};

# Integer square roots of bigs by Newton's method.

root(n: big): big
{
	if (n < big 2)
		return n;
	x := n;
	y := (x + big 1) / big 2;
	while (y < x) {
		x = y;
		y = (x + n / x) / big 2;
	}
	return x;
}

init(nil: ref Draw->Context, nil: list of string)
{
	sys = load Sys Sys->PATH;
	n := big 7;
	for (i := 0; i < 17; i++) {
		r := root(n);
		sys->print("root of %bd is %bd, rest %bd\n", n, r, n - r * r);
		n = n * big 11 + big i;
	}
	sys->print("root of 2 * 10^18: %bd\n", root(2000000000000000000));
	sys->print("root of the largest less one: %bd\n", root(9223372036854775806));
}
