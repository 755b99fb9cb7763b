implement Perfect;
include "sys.m";
	sys: Sys;
include "draw.m";
Perfect: module
{
	init:	fn(ctxt: ref Draw->Context, argv: list of string);
};

# Perfect, abundant and deficient numbers up to 500, by the sums of their proper divisors.
init(nil: ref Draw->Context, nil: list of string)
{
	sys = load Sys Sys->PATH;
	perfect, abundant, deficient := 0;
	for (n := 1; n <= 500; n++) {
		s := divisorsum(n);
		if (s == n) {
			sys->print("%d is perfect\n", n);
			perfect++;
		} else if (s > n)
			abundant++;
		else
			deficient++;
	}
	sys->print("%d perfect, %d abundant, %d deficient\n", perfect, abundant, deficient);

	# amicable pairs
	for (n = 1; n <= 1300; n++) {
		m := divisorsum(n);
		if (m > n && divisorsum(m) == n)
			sys->print("%d and %d are friends\n", n, m);
	}
}

divisorsum(n: int): int
{
	if (n == 1)
		return 0;
	sum := 1;
	for (d := 2; d * d <= n; d++) {
		if (n % d != 0)
			continue;
		sum += d;
		if (d != n / d)
			sum += n / d;
	}
	return sum;
}
