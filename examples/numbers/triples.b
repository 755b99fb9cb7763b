implement Triples;
include "sys.m";
	sys: Sys;
include "draw.m";
Triples: module
{
	init:	fn(ctxt: ref Draw->Context, argv: list of string);
};

# Pythagorean triples with a hypotenuse up to 60; the primitive ones have a star.
init(nil: ref Draw->Context, nil: list of string)
{
	sys = load Sys Sys->PATH;
	limit: con 60;
	count := 0;
	for (c := 1; c <= limit; c++)
		for (a := 1; a < c; a++)
			for (b := a; b < c; b++) {
				if (a*a + b*b != c*c)
					continue;
				count++;
				sys->print("%d %d %d", a, b, c);
				if (common(a, b) == 1)
					sys->print(" *");
				sys->print("\n");
			}
	sys->print("%d triples\n", count);
}

common(a, b: int): int
{
	if (a == 0)
		return b;
	return common(b % a, a);
}
