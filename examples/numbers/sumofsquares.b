implement SumOfSquares;

include "sys.m";
	sys: Sys;

include "draw.m";

SumOfSquares: module
{
	init: fn(nil: ref Draw->Context, nil: list of string);
};

# Numbers as sums of two and of four squares, and taxicab numbers as sums of two cubes.

two(n: int): int
{
	ways := 0;
	for (a := 0; 2 * a * a <= n; a++)
		for (b := a; a * a + b * b <= n; b++)
			if (a * a + b * b == n)
				ways++;
	return ways;
}

four(n: int)
{
	for (a := 0; a * a <= n; a++)
		for (b := 0; b <= a && a*a + b*b <= n; b++)
			for (c := 0; c <= b && a*a + b*b + c*c <= n; c++)
				for (d := 0; d <= c; d++)
					if (a*a + b*b + c*c + d*d == n) {
						sys->print("%d = %d^2 + %d^2 + %d^2 + %d^2\n", n, a, b, c, d);
						return;
					}
	sys->print("%d: none\n", n);
}

cubes(n: int): int
{
	ways := 0;
	a := 1;
	b := 1;
	while (b * b * b < n)
		b++;
	while (a <= b) {
		s := a * a * a + b * b * b;
		if (s == n)
			ways++;
		if (s < n)
			a++;
		else
			b--;
	}
	return ways;
}

init(nil: ref Draw->Context, nil: list of string)
{
	sys = load Sys Sys->PATH;
	for (n := 0; n < 60; n++)
		sys->print("%d", two(n));
	sys->print(" %d %d\n", two(325), two(1105));
	for (n = 5; n < 120; n += 17)
		four(n);
	for (n = 1; n < 5000; n++)
		if (cubes(n) > 1)
			sys->print("%d\n", n);
}
