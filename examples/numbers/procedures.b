implement Procedures;
include "sys.m"; sys: Sys;
include "draw.m";
Procedures: module { init: fn(ctxt: ref Draw->Context, argv: list of string); };

# A turtle on a grid: procedures without an answer that change variables of the module.

px, py, heading, steps: int;
seen: big;

forward(n: int)
{
	while (n-- > 0) {
		if (heading == 0) py++;
		else if (heading == 1) px++;
		else if (heading == 2) py--;
		else px--;
		steps++;
		mark();
	}
}

mark()
{
	if (px < 0 || px > 7 || py < 0 || py > 7)
		return;
	seen |= big 1 << (py * 8 + px);
}

turn(quarters: int)
{
	heading = (heading + quarters) % 4;
	if (heading < 0)
		heading += 4;
}

say()
{
	sys->print("at %d,%d heading %d after %d\n", px, py, heading, steps);
}

square(n: int)
{
	for (i := 0; i < 4; i++) {
		forward(n);
		turn(1);
	}
}

picture()
{
	for (y := 7; y >= 0; y--) {
		for (x := 0; x < 8; x++)
			if ((seen >> (y * 8 + x) & big 1) == big 1)
				sys->print("#");
			else
				sys->print(".");
		sys->print("\n");
	}
}

init(nil: ref Draw->Context, nil: list of string)
{
	sys = load Sys Sys->PATH;
	mark();
	square(7);
	say();
	forward(2); turn(1); forward(3); turn(-1); say();
	forward(3); turn(-1); forward(12); say();
	turn(-6);
	forward(20);
	say();
	picture();
}
