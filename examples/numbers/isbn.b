implement Isbn;
include "sys.m";
	sys: Sys;
include "draw.m";
Isbn: module
{
	init:	fn(ctxt: ref Draw->Context, argv: list of string);
};

# Check digits of books, ten digits with X, and thirteen digits.
init(nil: ref Draw->Context, nil: list of string)
{
	sys = load Sys Sys->PATH;
	ten(30640615);
	ten(13110362);
	ten(80442957);
	ten(0);
	thirteen(978030640615);
	thirteen(978316148410);
	for (n := 200000000; n < 200000011; n++)
		ten(n);
}

ten(n: int)
{
	m := n;
	sum := 0;
	for (w := 2; w <= 10; w++) {
		sum += w * (m % 10);
		m /= 10;
	}
	c := (11 - sum % 11) % 11;
	for (p := 100000000; p > 0; p /= 10)
		sys->print("%d", n / p % 10);
	if (c == 10)
		sys->print("-X\n");
	else
		sys->print("-%d\n", c);
}

thirteen(n: big)
{
	sum := 0;
	m := n;
	for (i := 0; m > big 0; i++) {
		d := int (m % big 10);
		if (i & 1)
			sum += d;
		else
			sum += 3 * d;
		m /= big 10;
	}
	sys->print("%bd-%d\n", n, (10 - sum % 10) % 10);
}
