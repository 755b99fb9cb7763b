implement Calendar;

include "sys.m";
	sys: Sys;

include "draw.m";

Calendar: module
{
	init: fn(nil: ref Draw->Context, nil: list of string);
};

# Leaves of a calendar, by the number of days since the year 1, and back from days to dates.

leap(y: int): int { return y % 4 == 0 && y % 100 != 0 || y % 400 == 0; }

length(m, y: int): int
{
	if (m == 2)
		return 28 + leap(y);
	return 30 + (m + m / 8) % 2;
}

days(d, m, y: int): int
{
	n := (y - 1) * 365 + (y - 1) / 4 - (y - 1) / 100 + (y - 1) / 400 + d;
	for (i := 1; i < m; i++)
		n += length(i, y);
	return n;
}

leaf(m, y: int)
{
	sys->print("    %d / %d\nMo Tu We Th Fr Sa Su\n", m, y);
	w := (days(1, m, y) - 1) % 7;
	for (i := 0; i < w; i++)
		sys->print("   ");
	for (d := 1; d <= length(m, y); d++) {
		if (d < 10)
			sys->print(" ");
		sys->print("%d", d);
		w++;
		if (w % 7 == 0 || d == length(m, y))
			sys->print("\n");
		else
			sys->print(" ");
	}
}

dated(n: int)
{
	y := n / 366 + 1;
	while (days(1, 1, y + 1) <= n)
		y++;
	m := 1;
	while (m < 12 && days(1, m + 1, y) <= n)
		m++;
	sys->print("day %d is %d-%d-%d\n", n, y, m, n - days(1, m, y) + 1);
}

init(nil: ref Draw->Context, nil: list of string)
{
	sys = load Sys Sys->PATH;
	leaf(2, 2026);
	leaf(2, 2024);
	leaf(11, 2026);
	leaf(8, 1999);
	dated(1);
	dated(146097);
	dated(146098);
	dated(719163);
	dated(739671);
	sys->print("%d days from the moon to the millennium\n", days(1, 1, 2000) - days(20, 7, 1969));
}
