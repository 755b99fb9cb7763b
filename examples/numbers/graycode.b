implement Gray;
include "sys.m"; sys: Sys;
include "draw.m";
Gray: module { init: fn(ctxt: ref Draw->Context, argv: list of string); };

# Gray codes of four bits, back to numbers, and that each differs from the next in one bit.

gray(n: int): int { return n ^ n >> 1; }

back(g: int): int
{
	n := 0;
	for (; g != 0; g >>= 1)
		n ^= g;
	return n;
}

bits(n, width: int)
{
	while (--width >= 0)
		sys->print("%d", n >> width & 1);
}

init(nil: ref Draw->Context, nil: list of string)
{
	sys = load Sys Sys->PATH;
	for (i := 0; i < 16; i++) {
		bits(i, 4);
		sys->print(" ");
		bits(gray(i), 4);
		sys->print(" %d\n", back(gray(i)));
	}
	wrong := 0;
	for (i = 0; i < 5000; i++) {
		d := gray(i) ^ gray(i + 1);
		if (d == 0 || (d & d - 1) != 0 || back(gray(i)) != i)
			wrong++;
	}
	sys->print("wrong: %d\n", wrong);
}
