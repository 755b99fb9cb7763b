implement Clock;
include "sys.m";
	sys: Sys;
include "draw.m";
Clock: module
{
	init:	fn(ctxt: ref Draw->Context, argv: list of string);
};

# Clock arithmetic: seconds as hours, minutes and seconds, also of yesterday, and the angle of the hands.
init(nil: ref Draw->Context, nil: list of string)
{
	sys = load Sys Sys->PATH;
	DAY: con 24 * 60 * 60;
	show(0);
	show(59);
	show(3600);
	show(DAY - 1);
	show(DAY + 61);
	show(-1);
	show(-DAY - 3661);
	show(2147483647);
	for (h := 0; h < 12; h++)
		sys->print("at %d:%d%d the hands are %d half degrees apart\n", h, h / 2, h % 2 * 5, angle(h, h / 2 * 10 + h % 2 * 5));
	sys->print("10 o'clock plus 5 hours is %d o'clock\n", wrap(10 + 5));
	sys->print("3 o'clock less 8 hours is %d o'clock\n", wrap(3 - 8));
}

mod(a, b: int): int
{
	r := a % b;
	if (r < 0)
		r += b;
	return r;
}

wrap(h: int): int
{
	h = mod(h, 12);
	if (h == 0)
		return 12;
	return h;
}

two(n: int)
{
	sys->print("%d%d", n / 10, n % 10);
}

show(s: int)
{
	sys->print("%d seconds: ", s);
	t := mod(s, 86400);
	two(t / 3600);
	sys->print(":");
	two(t / 60 % 60);
	sys->print(":");
	two(t % 60);
	sys->print("\n");
}

angle(h, m: int): int
{
	a := 60*h + m - 12*m;
	a = mod(a, 720);
	if (a > 360)
		a = 720 - a;
	return a;
}
