implement Iota;
include "sys.m"; sys: Sys;
include "draw.m";
Iota: module { init: fn(ctxt: ref Draw->Context, argv: list of string); };

# Constants: counted by iota, computed from one another, in any order, and inside of functions.

red, green, blue: con iota;
A, B, C, D: con 1 << iota;
first, second, third: con (iota + 1) * 100 - 1;
all: con A | B | C | D;
area: con width * height;
width: con 12;
height: con width + 3;
million: con 1000000;
billion: con big million * big 1000;
yes, no: con !iota;
letter: con 'a' + 2;
small: con byte 300;
mask: con ~(1 << 4);

name(c: int)
{
	if (c == red) sys->print("red");
	else if (c == green) sys->print("green");
	else if (c == blue) sys->print("blue");
	else sys->print("none");
}

init(nil: ref Draw->Context, nil: list of string)
{
	sys = load Sys Sys->PATH;
	for (c := red; c <= blue + 1; c++) {
		name(c);
		sys->print(" ");
	}
	sys->print("%d %d %d\n", red, green, blue);
	sys->print("%d %d %d %d %d\n", A, B, C, D, all);
	sys->print("%d %d %d\n", first, second, third);
	sys->print("%d %d %d\n", width, height, area);
	sys->print("%d %bd %bd\n", million, billion, billion * billion);
	sys->print("%d %d %c %d %x\n", yes, no, letter, small, mask);
	north, east, south, west: con iota * 90;
	half: con (south - north) / 2;
	sys->print("%d %d %d %d %d\n", north, east, south, west, half);
	flags := A | C;
	flags &= ~A;
	flags |= D;
	if (flags & C)
		sys->print("C ");
	if (flags & A)
		sys->print("A ");
	sys->print("%d\n", flags);
}
