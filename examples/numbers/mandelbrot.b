implement Mandelbrot;
include "sys.m";
	sys: Sys;
include "draw.m";
Mandelbrot: module
{
	init:	fn(ctxt: ref Draw->Context, argv: list of string);
};

# The set of Mandelbrot in fixed point with 12 bits behind the point.
SHIFT: con 12;
ONE: con 1 << SHIFT;
LIMIT: con 40;

init(nil: ref Draw->Context, nil: list of string)
{
	sys = load Sys Sys->PATH;
	for (row := -10; row <= 10; row++) {
		for (col := -40; col < 20; col++)
			dot(escape(col * ONE / 20, row * ONE / 9));
		sys->print("\n");
	}
}

escape(cx, cy: int): int
{
	x, y: int = 0;
	for (n := 0; n < LIMIT; n++) {
		xx := x * x >> SHIFT;
		yy := y * y >> SHIFT;
		if (xx + yy > 4 * ONE)
			return n;
		y = (x * y >> SHIFT - 1) + cy;
		x = xx - yy + cx;
	}
	return LIMIT;
}

dot(n: int)
{
	if (n == LIMIT)
		sys->print("#");
	else if (n > 12)
		sys->print("+");
	else if (n > 6)
		sys->print("-");
	else if (n > 3)
		sys->print(".");
	else
		sys->print(" ");
}
