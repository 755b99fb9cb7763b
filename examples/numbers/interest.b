implement Interest;
include "sys.m";
	sys: Sys;
include "draw.m";
Interest: module
{
	init:	fn(ctxt: ref Draw->Context, argv: list of string);
};

# Interest in cents with rates in hundredths of a percent: years to double, and a loan that is paid off.
init(nil: ref Draw->Context, nil: list of string)
{
	sys = load Sys Sys->PATH;
	for (rate := 100; rate <= 1000; rate += 150) {
		years := 0;
		for (sum := big 100000; sum < big 200000; sum += interest(sum, rate))
			years++;
		sys->print("%d.%d%d%%: %d years, ", rate / 100, rate / 10 % 10, rate % 10, years);
		money(sum);
		sys->print("\n");
	}
	debt := big 1000000;
	month := 0;
	paid := big 0;
	while (debt > big 0) {
		month++;
		debt += interest(debt, 40);
		pay := big 87500;
		if (pay > debt)
			pay = debt;
		debt -= pay;
		paid += pay;
		sys->print("%d: ", month);
		money(debt);
		sys->print("\n");
	}
	sys->print("paid ");
	money(paid);
	sys->print("\n");
}

interest(sum: big, rate: int): big
{
	return (sum * big rate + big 5000) / big 10000;
}

money(cents: big)
{
	c := int (cents % big 100);
	sys->print("$%bd.%d%d", cents / big 100, c / 10, c % 10);
}
