implement Adler;

include "sys.m";
	sys: Sys;

include "draw.m";

Adler: module
{
	init: fn(nil: ref Draw->Context, nil: list of string);
};

# Adler-32 of letters and of numbers.

a, b: int;
MOD: con 65521;

start() { a = 1; b = 0; }

add(c: int)
{
	a = (a + c) % MOD;
	b = (b + a) % MOD;
}

sum(): int { return b << 16 | a; }

init(nil: ref Draw->Context, nil: list of string)
{
	sys = load Sys Sys->PATH;
	start();
	add('W'); add('i'); add('k'); add('i'); add('p'); add('e'); add('d'); add('i'); add('a');
	sys->print("%x\n", sum());
	start();
	for (i := 0; i < 20000; i++)
		add(i & 16rFF);
	sys->print("%x %d\n", sum(), sum());
	start();
	sys->print("%d\n", sum());
}
