implement Roman;

include "sys.m";
	sys: Sys;

include "draw.m";

Roman: module
{
	init: fn(nil: ref Draw->Context, nil: list of string);
};

# Numbers in Roman numerals.

part(n, value: int, a, b: int): int
{
	while (n >= value) {
		sys->print("%c", a);
		if (b != 0)
			sys->print("%c", b);
		n -= value;
	}
	return n;
}

roman(n: int)
{
	n = part(n, 1000, 'M', 0);
	n = part(n, 900, 'C', 'M');
	n = part(n, 500, 'D', 0);
	n = part(n, 400, 'C', 'D');
	n = part(n, 100, 'C', 0);
	n = part(n, 90, 'X', 'C');
	n = part(n, 50, 'L', 0);
	n = part(n, 40, 'X', 'L');
	n = part(n, 10, 'X', 0);
	n = part(n, 9, 'I', 'X');
	n = part(n, 5, 'V', 0);
	n = part(n, 4, 'I', 'V');
	part(n, 1, 'I', 0);
}

init(nil: ref Draw->Context, nil: list of string)
{
	sys = load Sys Sys->PATH;
	for (i := 1; i <= 20; i++) {
		sys->print("%d = ", i);
		roman(i);
		sys->print("\n");
	}
	for (i = 44; i < 4000; i = i * 2 + 11) {
		sys->print("%d = ", i);
		roman(i);
		sys->print("\n");
	}
	roman(1999); sys->print(" "); roman(2026); sys->print(" "); roman(3888); sys->print("\n");
}
