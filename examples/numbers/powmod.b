implement PowMod;
include "sys.m";
	sys: Sys;
include "draw.m";
PowMod: module
{
	init:	fn(ctxt: ref Draw->Context, argv: list of string);
};

# Powers modulo a number, by squaring with bigs, and by repeated products with ints.

power(b, e, m: int): int
{
	result := big 1;
	square := big b % big m;
	while (e > 0) {
		if (e & 1)
			result = result * square % big m;
		square = square * square % big m;
		e >>= 1;
	}
	return int (result % big m);
}

simple(b, e, m: int): int
{
	r := 1 % m;
	for (i := 0; i < e; i++)
		r = r * b % m;
	return r;
}

init(nil: ref Draw->Context, nil: list of string)
{
	sys = load Sys Sys->PATH;
	for (e := 0; e <= 20; e++)
		sys->print("3^%d mod 1000 = %d %d\n", e, power(3, e, 1000), simple(3, e, 1000));
	sys->print("2^1000000 mod 1000000007 = %d\n", power(2, 1000000, 1000000007));
	sys->print("7^2147483647 mod 2147483647 = %d\n", power(7, 2147483647, 2147483647));
	sys->print("123456789^987654321 mod 1000000000 = %d\n", power(123456789, 987654321, 1000000000));
	sys->print("last digits of 7^777: %d\n", simple(7, 777, 10000));
}
