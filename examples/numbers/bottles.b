implement Bottles;

include "sys.m";
	sys: Sys;
	print: import sys;
include "draw.m";

Bottles: module
{
	start: con 12;
	init: fn(ctxt: ref Draw->Context, argv: list of string);
	verse: fn(n: int): int;
};

# The song of the bottles, with print as an imported name, and a count of its bytes.
init(ctxt: ref Draw->Context, argv: list of string)
{
	sys = load Sys Sys->PATH;
	bytes := 0;
	for (n := start; n > 0; n--)
		bytes += verse(n);
	print("%d bytes\n", bytes);
}

bottles(n: int): int
{
	if (n == 0)
		return print("no more bottles");
	if (n == 1)
		return print("one bottle");
	return print("%d bottles", n);
}

verse(n: int): int
{
	k := bottles(n) + print(" of beer on the wall, ");
	k += bottles(n) + print(" of beer.\nTake one down, pass it around, ");
	k += bottles(n - 1);
	return k + print(" of beer on the wall.\n");
}
