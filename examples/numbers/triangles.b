implement Triangles;
include "sys.m";
	sys: Sys;
include "draw.m";
Triangles: module
{
	init:	fn(ctxt: ref Draw->Context, argv: list of string);
};

# Draws triangles of stars: left, right, upside down, and Floyd's triangle of numbers.
init(nil: ref Draw->Context, nil: list of string)
{
	sys = load Sys Sys->PATH;
	n: con 6;

	for (i := 1; i <= n; i++) {
		for (j := 0; j < i; j++)
			sys->print("*");
		sys->print("\n");
	}
	for (i = 1; i <= n; i++) {
		repeat(' ', n - i);
		repeat('*', i);
		sys->print("\n");
	}
	for (i = n; i >= 1; i--) {
		repeat(' ', n - i);
		repeat('#', 2 * i - 1);
		sys->print("\n");
	}
	k := 1;
	for (i = 1; i <= n; i++) {
		for (j := 1; j <= i; j++)
			sys->print("%d ", k++);
		sys->print("\n");
	}
}

repeat(c, n: int)
{
	while (n-- > 0)
		sys->print("%c", c);
}
