implement Unicode;

include "sys.m";
	sys: Sys;

include "draw.m";

Unicode: module
{
	init: fn(nil: ref Draw->Context, nil: list of string);
};

# Characters beyond ASCII, by code and in the text: Greek, arrows, boxes, and how many bytes each takes.

init(nil: ref Draw->Context, nil: list of string)
{
	sys = load Sys Sys->PATH;
	for (c := 'α'; c <= 'ω'; c++)
		sys->print("%c", c);
	sys->print("\n");
	for (c = 16r2190; c < 16r219A; c++)
		sys->print("%c %x\n", c, c);
	sys->print("┌");
	for (i := 0; i < 10; i++)
		sys->print("%c", '─');
	sys->print("┐\n│ naïve 日本 │\n└──────────┘\n");
	sys->print("\u00e9\u03b1\u20ac %c %c\n", '\u00e9', '€');
	a := sys->print("%c", 'x');
	b := sys->print("%c", 'é');
	d := sys->print("%c", '€');
	e := sys->print("%c", 16r1F600);
	sys->print(" %d %d %d %d\n", a, b, d, e);
	größe := 7;
	sys->print("größe %d\n", größe * 6);
	for (c = 16r0430; c < 16r0450; c++)
		sys->print("%c", c);
	sys->print("\n");
}
