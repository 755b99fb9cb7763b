implement Hanoi;
include "sys.m"; sys: Sys;
include "draw.m";
Hanoi: module { init: fn(ctxt: ref Draw->Context, argv: list of string); };

# The towers of Hanoi without memory: the state of all disks is three numbers of bits.

pegA, pegB, pegC: int;
moves := 0;

move(n: int, a: int, c: int, b: int)
{
	if (n == 0)
		return;
	move(n - 1, a, b, c);
	take(a, n - 1);
	put(c, n - 1);
	moves++;
	sys->print("%d: %c to %c  %x %x %x\n", moves, a, c, pegA, pegB, pegC);
	move(n - 1, b, c, a);
}

take(peg, disk: int)
{
	if (peg == 'A') pegA &= ~(1 << disk);
	else if (peg == 'B') pegB &= ~(1 << disk);
	else pegC &= ~(1 << disk);
}

put(peg, disk: int)
{
	if (peg == 'A') pegA |= 1 << disk;
	else if (peg == 'B') pegB |= 1 << disk;
	else pegC |= 1 << disk;
}

init(nil: ref Draw->Context, nil: list of string)
{
	sys = load Sys Sys->PATH;
	pegA = (1 << 5) - 1;
	move(5, 'A', 'C', 'B');
	sys->print("%d moves\n", moves);
}
