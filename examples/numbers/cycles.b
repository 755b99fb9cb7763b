implement Cycles;

include "sys.m";
	sys: Sys;

include "draw.m";

Cycles: module
{
	init: fn(nil: ref Draw->Context, nil: list of string);
};

# Finds the length of the cycle of x -> x*x + c mod m, by Brent's way.

f(x, c, m: int): int
{
	return int ((big x * big x + big c) % big m);
}

cycle(c, m: int)
{
	power := length := 1;
	slow := 2;
	fast := f(2, c, m);
	while (slow != fast) {
		if (power == length) {
			slow = fast;
			power *= 2;
			length = 0;
		}
		fast = f(fast, c, m);
		length++;
	}
	start := 0;
	slow = fast = 2;
	for (i := 0; i < length; i++)
		fast = f(fast, c, m);
	while (slow != fast) {
		slow = f(slow, c, m);
		fast = f(fast, c, m);
		start++;
	}
	sys->print("x*x + %d mod %d: after %d steps a cycle of %d\n", c, m, start, length);
}

init(nil: ref Draw->Context, nil: list of string)
{
	sys = load Sys Sys->PATH;
	for (c := 1; c <= 5; c++) {
		cycle(c, 1000);
		cycle(c, 12345);
	}
	cycle(1, 1000003);
	cycle(3, 2147483647);
}
