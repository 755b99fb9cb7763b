implement Xorshift;
include "sys.m";
	sys: Sys;
include "draw.m";
Xorshift: module
{
	init:	fn(ctxt: ref Draw->Context, argv: list of string);
};

seed: int = int 2463534242;

# Marsaglia's xorshift with 32 bits; the right shift has to bring in zeros.
init(nil: ref Draw->Context, nil: list of string)
{
	sys = load Sys Sys->PATH;
	for (i := 0; i < 20; i++)
		sys->print("%x\n", next());
	for (i = 0; i < 1000; i++)
		next();
	sys->print("after 1020: %d\n", seed);
	heads := 0;
	for (i = 0; i < 10000; i++)
		heads += next() & 1;
	sys->print("heads: %d of 10000\n", heads);
}

next(): int
{
	seed ^= seed << 13;
	seed ^= (seed >> 17) & 16r7FFF;
	seed ^= seed << 5;
	return seed;
}
