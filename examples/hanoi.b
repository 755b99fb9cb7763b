implement Hanoi;
include "sys.m";
	sys: Sys;
include "draw.m";
Hanoi: module
{
	init:	fn(ctxt: ref Draw->Context, argv: list of string);
};

# The towers of Hanoi: each move of four disks from the first peg to the third.
init(nil: ref Draw->Context, nil: list of string)
{
	sys = load Sys Sys->PATH;
	moves := move(4, 1, 3, 2);
	sys->print("%d moves\n", moves);
}

# Moves so many disks from one peg to another by way of a third, and answers in how many moves.
move(disks: int, source: int, target: int, spare: int): int
{
	if (disks == 0)
		return 0;
	moves := move(disks - 1, source, spare, target);
	sys->print("disk %d: peg %d to peg %d\n", disks, source, target);
	return moves + 1 + move(disks - 1, spare, target, source);
}
