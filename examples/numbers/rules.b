implement Rules;
include "sys.m";
	sys: Sys;
include "draw.m";
Rules: module
{
	init:	fn(ctxt: ref Draw->Context, argv: list of string);
};

# One row of cells in the bits of a big, by Wolfram's rules 30, 90 and 110.
init(nil: ref Draw->Context, nil: list of string)
{
	sys = load Sys Sys->PATH;
	run(30, big 1 << 31, 16);
	run(90, big 1 << 31, 16);
	run(110, big 1, 16);
}

run(rule: int, cells: big, turns: int)
{
	sys->print("rule %d\n", rule);
	for (t := 0; t < turns; t++) {
		for (i := 62; i >= 0; i--)
			if (bit(cells, i))
				sys->print("#");
			else
				sys->print(".");
		sys->print("\n");
		next := big 0;
		for (i = 0; i < 63; i++) {
			k := bit(cells, (i + 1) % 63) << 2 | bit(cells, i) << 1 | bit(cells, (i + 62) % 63);
			if (rule & 1 << k)
				next |= big 1 << i;
		}
		cells = next;
	}
}

bit(cells: big, i: int): int
{
	return int (cells >> i) & 1;
}
