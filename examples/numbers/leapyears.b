implement LeapYears;
include "sys.m";
	sys: Sys;
include "draw.m";
LeapYears: module
{
	init:	fn(ctxt: ref Draw->Context, argv: list of string);
};

# Leap years, and how many days years and months have.

leap(y: int): int
{
	return y % 4 == 0 && (y % 100 != 0 || y % 400 == 0);
}

days(m, y: int): int
{
	if (m == 2)
		return 28 + leap(y);
	if (m == 4 || m == 6 || m == 9 || m == 11)
		return 30;
	return 31;
}

init(nil: ref Draw->Context, nil: list of string)
{
	sys = load Sys Sys->PATH;
	for (y := 1896; y <= 2024; y++)
		if (leap(y))
			sys->print("%d ", y);
	sys->print("\n");
	for (y = 1600; y <= 2100; y += 100)
		sys->print("%d: %d\n", y, 365 + leap(y));
	sum := 0;
	for (m := 1; m <= 12; m++) {
		sys->print("month %d: %d or %d days\n", m, days(m, 2023), days(m, 2024));
		sum += days(m, 2024);
	}
	sys->print("together %d\n", sum);
	all := 0;
	for (y = 1; y <= 2026; y++)
		all += 365 + leap(y);
	sys->print("days from the year 1 to 2026: %d\n", all);
}
