implement Nim;
include "sys.m";
	sys: Sys;
include "draw.m";
Nim: module
{
	init:	fn(ctxt: ref Draw->Context, argv: list of string);
};

# A game of nim between one who plays well and one who takes by chance; three heaps in three variables.
a, b, c: int;
seed := 7;

random(n: int): int
{
	seed = (seed * 75 + 74) % 65537;
	return seed % n;
}

take(heap, n: int)
{
	if (heap == 1)
		a -= n;
	else if (heap == 2)
		b -= n;
	else
		c -= n;
	sys->print("%d from heap %d: %d %d %d\n", n, heap, a, b, c);
}

clever()
{
	x := a ^ b ^ c;
	if (x == 0) {
		clumsy();
		return;
	}
	if ((a ^ x) < a)
		take(1, a - (a ^ x));
	else if ((b ^ x) < b)
		take(2, b - (b ^ x));
	else
		take(3, c - (c ^ x));
}

clumsy()
{
	for (;;) {
		h := random(3) + 1;
		n := a;
		if (h == 2)
			n = b;
		if (h == 3)
			n = c;
		if (n == 0)
			continue;
		take(h, random(n) + 1);
		break;
	}
}

game(x, y, z: int): int
{
	a = x; b = y; c = z;
	turn := 0;
	while (a || b || c) {
		if (turn)
			clumsy();
		else
			clever();
		turn = !turn;
	}
	return !turn;
}

init(nil: ref Draw->Context, nil: list of string)
{
	sys = load Sys Sys->PATH;
	clumsywins := 0;
	for (i := 1; i <= 4; i++) {
		sys->print("game %d\n", i);
		if (game(3 + i, 2 * i, 9))
			clumsywins++;
	}
	sys->print("chance won %d\n", clumsywins);
}
