implement Labels;
include "sys.m";
	sys: Sys;
include "draw.m";
Labels: module
{
	init:	fn(ctxt: ref Draw->Context, argv: list of string);
};

# Labelled break and continue out of and within nested loops of each kind.
init(nil: ref Draw->Context, nil: list of string)
{
	sys = load Sys Sys->PATH;

outer:
	for (i := 1; i <= 9; i++) {
		for (j := 1; j <= 9; j++) {
			if (j > i)
				continue outer;
			if (i * j == 42) {
				sys->print("found %d * %d\n", i, j);
				break outer;
			}
		}
	}
	sys->print("i is %d\n", i);

	x := 0;
rows:	while (x < 6) {
		x++;
		y := 0;
		do {
			y++;
			if (x == 2)
				continue rows;
			if (x == 5)
				break rows;
			if (y == x)
				break;
			if (y % 2 == 1)
				continue;
			sys->print("(%d,%d) ", x, y);
		} while (y < 10);
		sys->print("| ");
	}
	sys->print("\n");

	n := 0;
a:	do {
b:		for (;;) {
c:			while (1) {
				n++;
				if (n % 7 == 0)
					continue a;
				if (n % 5 == 0)
					break b;
				if (n % 3 == 0)
					continue b;
				if (n % 2 == 0)
					break c;
				sys->print("%d ", n);
			}
			sys->print("c ");
		}
		sys->print("b ");
	} while (n < 40);
	sys->print("a\n");
}
