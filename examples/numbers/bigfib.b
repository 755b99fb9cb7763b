implement BigFib;
include "sys.m"; sys: Sys;
include "draw.m";
BigFib: module { init: fn(ctxt: ref Draw->Context, argv: list of string); };

# Fibonacci numbers as bigs: up to the largest that fits, and the first that does not.

init(nil: ref Draw->Context, nil: list of string)
{
	sys = load Sys Sys->PATH;
	prev := big 0;
	cur := big 1;
	n := 1;
	for (;;) {
		next := prev + cur;
		if (next < cur) {
			sys->print("F(%d) would wrap to %bd\n", n + 1, next);
			break;
		}
		prev = cur;
		cur = next;
		n++;
		if (n % 10 == 0 || n > 88)
			sys->print("F(%d) = %bd\n", n, cur);
	}
	sys->print("largest: F(%d) = %bd, ends in %bd\n", n, cur, cur % big 1000);
	sys->print("ratio in millionths: %bd\n", cur / big 1000000 * big 1000000 / (prev / big 1000000));
}
