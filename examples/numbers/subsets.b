implement Subsets;
include "sys.m";
	sys: Sys;
include "draw.m";
Subsets: module
{
	init:	fn(ctxt: ref Draw->Context, argv: list of string);
};

# Subsets as bits: all of a size in order, those with a given sum, and the ways to fill a knapsack.
weight(i: int): int
{
	return (i * i * 7 + i * 3) % 23 + 1;
}

sum(set: int): int
{
	s := 0;
	for (i := 0; set >> i != 0; i++)
		if (set >> i & 1)
			s += weight(i);
	return s;
}

show(set: int)
{
	sys->print("{");
	first := 1;
	for (i := 0; i < 31; i++) {
		if (!(set & 1 << i))
			continue;
		if (!first)
			sys->print(" ");
		first = 0;
		sys->print("%d", i);
	}
	sys->print("}");
}

init(nil: ref Draw->Context, nil: list of string)
{
	sys = load Sys Sys->PATH;
	# Gosper's way to the next subset of the same size
	s := 2r111;
	n := 0;
	while (s < 1 << 6) {
		show(s);
		n++;
		c := s & -s;
		r := s + c;
		s = ((r ^ s) >> 2) / c | r;
	}
	sys->print("\n%d subsets\n", n);

	for (i := 0; i < 10; i++)
		sys->print("%d ", weight(i));
	sys->print("\n");
	hits := 0;
	best := 0;
	for (s = 0; s < 1 << 10; s++) {
		t := sum(s);
		if (t == 50) {
			hits++;
			if (hits <= 5) {
				show(s);
				sys->print("\n");
			}
		}
		if (t <= 77 && t > sum(best))
			best = s;
	}
	sys->print("%d with sum 50, best ", hits);
	show(best);
	sys->print(" with %d\n", sum(best));
}
