implement Comparisons;
include "sys.m"; sys: Sys;
include "draw.m";
Comparisons: module { init: fn(ctxt: ref Draw->Context, argv: list of string); };

# All six comparisons of ints, bigs and bytes, as the numbers 1 and 0.

ints(a, b: int) { sys->print("int %d %d: %d%d%d%d%d%d\n", a, b, a < b, a <= b, a == b, a != b, a >= b, a > b); }

bigs(a, b: big) { sys->print("big %bd %bd: %d%d%d%d%d%d\n", a, b, a < b, a <= b, a == b, a != b, a >= b, a > b); }

bytes(a, b: byte) { sys->print("byte %d %d: %d%d%d%d%d%d\n", a, b, a < b, a <= b, a == b, a != b, a >= b, a > b); }

init(nil: ref Draw->Context, nil: list of string)
{
	sys = load Sys Sys->PATH;
	ints(1, 2); ints(2, 1); ints(3, 3); ints(-1, 1); ints(1, -1);
	ints(2147483647, 16r80000000);
	ints(16r80000000, 16r80000000 + 1);
	bigs(big 1, big 2); bigs(big -5, big -5);
	bigs(big 1 << 32, big 0);
	bigs(big 1 << 63, 9223372036854775807);
	bigs(4294967295, big 16rFFFFFFFF);
	bytes(byte 255, byte 1); bytes(byte 127, byte 128); bytes(byte 256, byte 0);
	sys->print("%d %d %d\n", 1 < 2 == 1, 3 > 2 > 1, 5 == 5 == 5);
	sys->print("%d %d %d\n", !0, !7, !!7);
	sys->print("%d %d\n", 1 + 1 == 2 && 2 < 1 + 3, 4 & 6 == 6);
	max := 3;
	max += (max < 10) * 7;
	sys->print("%d\n", max);
}
