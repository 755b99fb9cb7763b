implement Table;
include "sys.m";
	sys: Sys;
include "draw.m";
Table: module
{
	init:	fn(ctxt: ref Draw->Context, argv: list of string);
};

# A multiplication table, and how many of its products are even, in a hundred.
init(nil: ref Draw->Context, nil: list of string)
{
	sys = load Sys Sys->PATH;
	even := 0;
	row := 1;
	while (row < 11) {
		column := 1;
		while (column < 11) {
			if (row * column < 10)
				sys->print(" ");
			if (row * column < 100)
				sys->print(" ");
			sys->print("%d ", row * column);
			even = even + iseven(row * column);
			column = column + 1;
		}
		sys->print("\n");
		row = row + 1;
	}
	sys->print("%d%% of them are even\n", even);
}

iseven(n: int): int
{
	while (1 < n)
		n = n - 2;
	return n == 0;
}
