implement Queens;

include "sys.m";
	sys: Sys;

include "draw.m";

Queens: module
{
	init: fn(nil: ref Draw->Context, nil: list of string);
};

# Counts the solutions of the n queens by sets of columns and diagonals as bits.

full: int;
tries := 0;

place(columns, left, right: int): int
{
	if (columns == full)
		return 1;
	free := full & ~(columns | left | right);
	found := 0;
	while (free != 0) {
		spot := free & -free;
		free ^= spot;
		tries++;
		found += place(columns | spot, (left | spot) << 1, (right | spot) >> 1);
	}
	return found;
}

init(nil: ref Draw->Context, nil: list of string)
{
	sys = load Sys Sys->PATH;
	for (n := 1; n <= 8; n++) {
		full = (1 << n) - 1;
		tries = 0;
		found := place(0, 0, 0);
		sys->print("%d queens: %d solutions, %d queens put\n", n, found, tries);
	}
}
