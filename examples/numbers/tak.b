implement Tak;
include "sys.m";
	sys: Sys;
include "draw.m";
Tak: module
{
	init:	fn(ctxt: ref Draw->Context, argv: list of string);
};

# The function of Takeuchi, with its calls counted, and the short form of its value.
calls := 0;

tak(x, y, z: int): int
{
	calls++;
	if (y >= x)
		return z;
	return tak(tak(x - 1, y, z), tak(y - 1, z, x), tak(z - 1, x, y));
}

closed(x, y, z: int): int
{
	if (x <= y)
		return z;
	if (y <= z)
		return z;
	return x;
}

init(nil: ref Draw->Context, nil: list of string)
{
	sys = load Sys Sys->PATH;
	for (x := 2; x <= 10; x += 2) {
		calls = 0;
		v := tak(x, x / 2, 0);
		sys->print("tak(%d, %d, 0) = %d in %d calls\n", x, x / 2, v, calls);
	}
	calls = 0;
	sys->print("tak(9, 6, 3) = %d", tak(9, 6, 3));
	sys->print(" in %d calls\n", calls);
	same := 0;
	for (x = 0; x < 5; x++)
		for (y := 0; y < 5; y++)
			for (z := 0; z < 5; z++)
				same += tak(x, y, z) == closed(x, y, z);
	sys->print("%d of 125 by the short form\n", same);
}
