implement Triangular;

include "sys.m";
	sys: Sys;

include "draw.m";

Triangular: module
{
	init: fn(nil: ref Draw->Context, nil: list of string);
};

# Triangular, square and pentagonal numbers, and those that are two of them.

tri(n: int): int { return n * (n + 1) / 2; }
square(n: int): int { return n * n; }
penta(n: int): int { return n * (3*n - 1) / 2; }

init(nil: ref Draw->Context, nil: list of string)
{
	sys = load Sys Sys->PATH;
	for (i := 1; i <= 12; i++)
		sys->print("%d\t%d\t%d\t%d\n", i, tri(i), square(i), penta(i));

	sys->print("square triangular:");
	a, b: int;
	x, y: int = 1;
	while (x < 3000) {
		a = tri(x);
		b = square(y);
		if (a == b) {
			sys->print(" %d", a);
			x++;
		} else if (a < b)
			x++;
		else
			y++;
	}
	sys->print("\n");
	sys->print("tri(65535) = %d, tri(65536) wraps to %d\n", tri(65535), tri(65536));
}
