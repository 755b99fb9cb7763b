implement ShortCircuit;
include "sys.m";
	sys: Sys;
include "draw.m";
ShortCircuit: module
{
	init:	fn(ctxt: ref Draw->Context, argv: list of string);
};

calls: int;

# Operands of && and || that are not reached have no effect; the answers are 1 and 0.
yes(n: int): int
{
	calls = calls * 10 + n;
	return n;
}

no(n: int): int
{
	calls = calls * 10 + n;
	return 0;
}

show(v: int)
{
	sys->print("%d by %d\n", v, calls);
	calls = 0;
}

init(nil: ref Draw->Context, nil: list of string)
{
	sys = load Sys Sys->PATH;
	show(yes(1) && yes(2));
	show(no(1) && yes(2));
	show(yes(1) || yes(2));
	show(no(1) || yes(2));
	show(no(1) || no(2));
	show(yes(1) && yes(2) && no(3) && yes(4));
	show(no(1) || no(2) || yes(3) || yes(4));
	show(yes(1) || yes(2) && yes(3));
	show(no(1) && yes(2) || yes(3));
	show(no(1) && (yes(2) || yes(3)));
	show(!no(1) && !yes(2));
	show((yes(5) && yes(6)) + (yes(7) || yes(8)) * 10);
	x := 0;
	if (x != 0 && 100 / x > 3)
		sys->print("no\n");
	if (x == 0 || 100 / x > 3)
		sys->print("no division\n");
	i := 0;
	while (i < 5 && yes(++i) != 3)
		;
	show(i);
	b := 5 > 3 && 7;
	sys->print("%d\n", b);
}
