implement Sierpinski;

include "sys.m";
	sys: Sys;

include "draw.m";

Sierpinski: module
{
	init: fn(nil: ref Draw->Context, nil: list of string);
};

# The triangle of Sierpinski by bits: a dot where row and column share none.

init(nil: ref Draw->Context, nil: list of string)
{
	sys = load Sys Sys->PATH;
	size: con 32;
	y := size - 1;
	do {
		for (i := 0; i < y; i++)
			sys->print(" ");
		for (x := 0; x + y < size; x++)
			if ((x & y) == 0)
				sys->print("* ");
			else
				sys->print("  ");
		sys->print("\n");
	} while (--y >= 0);

	# and the carpet
	for (y = 0; y < 9; y++) {
		for (x := 0; x < 27; x++)
			sys->print("%c", carpet(x, y));
		sys->print("\n");
	}
}

carpet(x, y: int): int
{
	for (; x > 0 || y > 0; x /= 3) {
		if (x % 3 == 1 && y % 3 == 1)
			return ' ';
		y /= 3;
	}
	return '#';
}
