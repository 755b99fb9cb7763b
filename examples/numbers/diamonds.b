implement Diamonds;
include "sys.m"; sys: Sys;
include "draw.m";
Diamonds: module { init: fn(ctxt: ref Draw->Context, argv: list of string); };

# Draws a filled and a hollow diamond by distances, and one of letters.

abs(x: int): int { if (x < 0) return -x; return x; }

init(nil: ref Draw->Context, nil: list of string)
{
	sys = load Sys Sys->PATH;
	r := 5;
	for (y := -r; y <= r; y++) {
		for (x := -r; x <= r; x++)
			if (abs(x) + abs(y) <= r)
				sys->print("*");
			else
				sys->print(" ");
		sys->print("   ");
		for (x = -r; x <= r; x++) {
			d := abs(x) + abs(y);
			if (d == r) sys->print("o");
			else if (d > r) sys->print(".");
			else sys->print(" ");
		}
		sys->print("   ");
		for (x = -r; x <= r; x++) {
			d := abs(x) + abs(y);
			if (d > r)
				sys->print(" ");
			else
				sys->print("%c", 'A' + r - d);
		}
		sys->print("\n");
	}
}
