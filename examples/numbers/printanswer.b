implement PrintAnswer;
include "sys.m";
	sys: Sys;
include "draw.m";
PrintAnswer: module
{
	init:	fn(ctxt: ref Draw->Context, argv: list of string);
};

# What print answers: how many bytes it has written.
total := 0;

init(nil: ref Draw->Context, nil: list of string)
{
	sys = load Sys Sys->PATH;
	n := sys->print("hello\n");
	sys->print("%d\n", n);
	total += sys->print("%d %d %d\n", 1, -22, 333);
	total += sys->print("%d\n", 1 << 31 == 0 || 1);
	total += sys->print("%x %c %%\n", 255, '!');
	sys->print("together %d\n", total);
	sys->print("%d\n", sys->print("äöü\n") + sys->print("ab\n"));
	sys->print("%d\n", sys->print(""));
	width := 0;
	for (i := 1; i <= 1000000; i *= 10)
		width += sys->print("%d", i);
	sys->print(" %d\n", width);
	while (pad(sys->print("%d", i), 10) < 11 && i != 1)
		i /= 10;
	if (sys->print("x") == 1 && sys->print("yz") == 2)
		sys->print("\nas it should be\n");
}

pad(n, w: int): int
{
	for (; n < w; n++)
		sys->print(".");
	sys->print("|\n");
	return n;
}
