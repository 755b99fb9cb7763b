implement Spiral;
include "sys.m"; sys: Sys;
include "draw.m";
Spiral: module { init: fn(ctxt: ref Draw->Context, argv: list of string); };

# A spiral of numbers, each found by its row and column alone, and the sums of its diagonals.

abs(x: int): int { if (x < 0) return -x; return x; }
max(a, b: int): int { if (a > b) return a; return b; }

at(x, y: int): int
{
	ring := max(abs(x), abs(y));
	last := (2 * ring + 1) * (2 * ring + 1);
	if (y == ring)
		return last - (ring - x);
	if (x == -ring)
		return last - 2 * ring - (ring - y);
	if (y == -ring)
		return last - 4 * ring - (x + ring);
	return last - 6 * ring - (y + ring);
}

init(nil: ref Draw->Context, nil: list of string)
{
	sys = load Sys Sys->PATH;
	size: con 4;
	for (y := -size; y <= size; y++) {
		for (x := -size; x <= size; x++) {
			n := at(x, y);
			if (n < 10)
				sys->print(" ");
			sys->print(" %d", n);
		}
		sys->print("\n");
	}
	sum := 0;
	for (i := -150; i <= 150; i++) {
		sum += at(i, i);
		if (i != 0)
			sum += at(i, -i);
	}
	sys->print("diagonals: %d\n", sum);
}
