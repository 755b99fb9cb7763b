implement BigDiv;
include "sys.m";
	sys: Sys;
include "draw.m";
BigDiv: module
{
	init:	fn(ctxt: ref Draw->Context, argv: list of string);
};

# Quotients, remainders and products of bigs of both signs, and how they wrap.
init(nil: ref Draw->Context, nil: list of string)
{
	sys = load Sys Sys->PATH;
	a := 1234567890123456789;
	for (b := big 1; b < 2000000000000000000; b *= big -37) {
		show(a, b);
		show(-a, b);
		if (b > big 1 << 50)
			break;
	}
	least := big 1 << 63;
	most := least - big 1;
	sys->print("%bd %bd\n", least, most);
	show(least, big 10);
	show(least, big -1);
	show(most, least);
	show(least, most);
	sys->print("%bd %bd %bd\n", most + big 1, least * big 3, most * most);
	sys->print("%bd %bd\n", -least, -most);
	sys->print("%bd\n", 3037000500 * 3037000500);
	digits := 0;
	for (x := most; x != big 0; x /= big 10)
		digits++;
	sys->print("%d digits\n", digits);
}

show(a, b: big)
{
	q := a / b;
	r := a % b;
	sys->print("%bd / %bd = %bd rest %bd\n", a, b, q, r);
	if (q * b + r != a)
		sys->print("wrong\n");
}
