implement Happy;
include "sys.m";
	sys: Sys;
include "draw.m";
Happy: module
{
	init:	fn(ctxt: ref Draw->Context, argv: list of string);
};

# Happy numbers up to 200, with Floyd's tortoise and hare.
init(nil: ref Draw->Context, nil: list of string)
{
	sys = load Sys Sys->PATH;
	found := 0;
	for (n := 1; n <= 200; n++) {
		if (!happy(n))
			continue;
		sys->print("%d", n);
		found++;
		if (found % 10 == 0)
			sys->print("\n");
		else
			sys->print(" ");
	}
	sys->print("\n%d are happy\n", found);
}

happy(n: int): int
{
	slow := n;
	fast := squares(n);
	while (fast != 1 && slow != fast) {
		slow = squares(slow);
		fast = squares(squares(fast));
	}
	return fast == 1;
}

squares(n: int): int
{
	s := 0;
	while (n > 0) {
		d := n % 10;
		s += d * d;
		n /= 10;
	}
	return s;
}
