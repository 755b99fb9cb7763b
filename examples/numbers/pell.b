implement Pell;
include "sys.m";
	sys: Sys;
include "draw.m";
Pell: module
{
	init:	fn(ctxt: ref Draw->Context, argv: list of string);
};

# The least solutions of x^2 - n y^2 = 1, by continued fractions in bigs.
init(nil: ref Draw->Context, nil: list of string)
{
	sys = load Sys Sys->PATH;
	for (n := 2; n <= 61; n++)
		pell(n);
}

pell(n: int)
{
	a0 := 1;
	while ((a0 + 1) * (a0 + 1) <= n)
		a0++;
	if (a0 * a0 == n)
		return;
	m := 0;
	d := 1;
	a := a0;
	xold := big 1;
	x := big a0;
	yold := big 0;
	y := big 1;
	while (x * x - big n * y * y != big 1) {
		m = d * a - m;
		d = (n - m * m) / d;
		a = (a0 + m) / d;
		x = big a * x + xold;
		xold = (x - xold) / big a;
		y = big a * y + yold;
		yold = (y - yold) / big a;
	}
	sys->print("%bd^2 - %d * %bd^2 = 1\n", x, n, y);
}
