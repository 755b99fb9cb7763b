implement Bases;
include "sys.m";
	sys: Sys;
include "draw.m";
Bases: module
{
	init:	fn(ctxt: ref Draw->Context, argv: list of string);
};

# Writes numbers in all bases up to 36, by recursion.
init(nil: ref Draw->Context, nil: list of string)
{
	sys = load Sys Sys->PATH;
	for (b := 2; b <= 36; b++) {
		sys->print("2026 in base %d: ", b);
		number(2026, b);
		sys->print("\n");
	}
	number(-255, 16);
	sys->print(" ");
	number(0, 7);
	sys->print(" ");
	number(2147483647, 36);
	sys->print(" ");
	number(16r80000000, 2);
	sys->print(" ");
	large(9223372036854775807, 36);
	sys->print("\n");
}

number(n, base: int)
{
	if (n < 0)
		sys->print("-");
	else
		n = -n;
	# the least int has no opposite, so all is done below zero
	digits(n, base);
}

digits(n, base: int)
{
	if (n <= -base)
		digits(n / base, base);
	d := -(n % base);
	if (d < 10)
		sys->print("%c", '0' + d);
	else
		sys->print("%c", 'a' + d - 10);
}

large(n: big, base: int)
{
	if (n >= big base)
		large(n / big base, base);
	number(int (n % big base), base);
}
