implement Machin;
include "sys.m";
	sys: Sys;
include "draw.m";
Machin: module
{
	init:	fn(ctxt: ref Draw->Context, argv: list of string);
};

# Pi with 15 decimals by Machin's formula in fixed point.

unit: con 1000000000000000000;

arctan(n: int): big
{
	# arctan(1/n) * unit
	power := unit / big n;
	sum := power;
	k := 3;
	sign := -1;
	for (;;) {
		power /= big (n * n);
		if (power == big 0)
			return sum;
		sum += big sign * (power / big k);
		sign = -sign;
		k += 2;
	}
}

init(nil: ref Draw->Context, nil: list of string)
{
	sys = load Sys Sys->PATH;
	quarter := big 4 * arctan(5) - arctan(239);
	sys->print("pi/4 = 0.%bd\n", quarter);
	rounded := (quarter + big 125) / big 250;
	sys->print("pi = 3.%bd\n", rounded % 1000000000000000);
	sys->print("arctan(1/5) = 0.%bd\n", arctan(5));
	sys->print("355/113 - pi = %bd * 10^-15\n", big 355 * 1000000000000000 / big 113 - rounded);
}
