implement EvalOrder;

include "sys.m";
	sys: Sys;

include "draw.m";

EvalOrder: module
{
	init: fn(nil: ref Draw->Context, nil: list of string);
};

# Operands and arguments are evaluated from left to right, each once.

trace := 0;

t(n: int): int
{
	trace = trace * 10 + n;
	return n;
}

three(a, b, c: int): int { return a * 100 + b * 10 + c; }

reset(): int
{
	old := trace;
	trace = 0;
	return old;
}

init(nil: ref Draw->Context, nil: list of string)
{
	sys = load Sys Sys->PATH;
	v := t(1) + t(2) * t(3);
	sys->print("%d %d\n", v, reset());
	v = (t(1) + t(2)) * (t(3) - t(4));
	sys->print("%d %d\n", v, reset());
	v = three(t(4), t(5), three(t(6), t(7), t(8)) % 7);
	sys->print("%d %d\n", v, reset());
	v = t(9) - t(8) - t(7) << t(1) | t(2) & t(3);
	sys->print("%d %d\n", v, reset());
	v = t(1) < t(2) == t(1);
	sys->print("%d %d\n", v, reset());
	sys->print("%d%d%d %d\n", t(3), t(2), t(1), trace);
	reset();

	x := 1;
	v = x + (x = 5) + x;
	sys->print("%d ", v);
	v = x++ * 10 + x++;
	sys->print("%d ", v);
	v = ++x - x-- + --x;
	sys->print("%d %d\n", v, x);
	sys->print("%d %d %d %d\n", x, x++, x, ++x);
	a, b, c: int;
	a = b = c = t(7);
	sys->print("%d %d %d %d\n", a, b, c, reset());
	a = (b = 3) + (c = b * b) - (b += c);
	sys->print("%d %d %d\n", a, b, c);
	x = 10;
	x = x-- - --x;
	sys->print("%d\n", x);
	sys->print("%d\n", trace * 1000 + t(4) + trace);
}
