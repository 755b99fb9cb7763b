implement Numbers;
include "sys.m";
	sys: Sys;
include "draw.m";
Numbers: module
{
	init:	fn(ctxt: ref Draw->Context, argv: list of string);
};

last: con 1 << 5;
calls := 0;

gcd(a, b: int): int
{
	calls++;
	if (b == 0)
		return a;
	return gcd(b, a % b);
}

init(nil: ref Draw->Context, nil: list of string)
{
	sys = load Sys Sys->PATH;
	sys->print("gcd %d in %d calls\n", gcd(1071, 462), calls);
	f := big 1;
	for (n := 1; n <= 20; n++)
		f *= big n;
	sys->print("20! = %bd\nperfect:", f);
outer:
	for (i := 2; i <= last; i++) {
		sum := 0;
		for (j := 1; j < i; j++) {
			if (i % j != 0)
				continue;
			sum += j;
			if (sum > i)
				continue outer;
		}
		if (sum == i)
			sys->print(" %d", i);
	}
	b := byte 255;
	b++;
	sys->print("\n%d %c %x\n", b, 'A' + 1, -1);
	sys->print("%d\n", 1 / (calls - 4));
}
