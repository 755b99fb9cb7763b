implement Isqrt;
include "sys.m";
	sys: Sys;
include "draw.m";
Isqrt: module
{
	init:	fn(ctxt: ref Draw->Context, argv: list of string);
};

# Integer square roots of ints in three ways: by odd numbers, by halving, by bits.

odd(n: int): int
{
	r := 0;
	d := 1;
	while (n >= d) {
		n -= d;
		d += 2;
		r++;
	}
	return r;
}

halving(n: int): int
{
	low := 0;
	high := 46341;
	while (high - low > 1) {
		mid := (low + high) / 2;
		if (mid * mid <= n)
			low = mid;
		else
			high = mid;
	}
	return low;
}

bits(n: int): int
{
	r := 0;
	b := 1 << 30;
	while (b > n)
		b >>= 2;
	while (b != 0) {
		if (n >= r + b) {
			n -= r + b;
			r = (r >> 1) + b;
		} else
			r >>= 1;
		b >>= 2;
	}
	return r;
}

init(nil: ref Draw->Context, nil: list of string)
{
	sys = load Sys Sys->PATH;
	n := 0;
	while (n < 100) {
		sys->print("%d ", odd(n));
		n += 3;
	}
	sys->print("\n");
	for (n = 1; n > 0 && n < 2147483647 / 3; n = n * 3 + 1)
		sys->print("%d: %d %d %d\n", n, odd(n), halving(n), bits(n));
	sys->print("%d %d\n", halving(2147483647), bits(2147483647));
}
