implement Alphabets;
include "sys.m";
	sys: Sys;
include "draw.m";
Alphabets: module
{
	init:	fn(ctxt: ref Draw->Context, argv: list of string);
};

# Alphabets by %c: letters, digits, every third one, Caesar's, and ASCII from the space on.
init(nil: ref Draw->Context, nil: list of string)
{
	sys = load Sys Sys->PATH;
	for (c := 'A'; c <= 'Z'; c++)
		sys->print("%c%c ", c, c - 'A' + 'a');
	sys->print("\n");
	for (c = 'z'; c >= 'a'; c -= 3)
		sys->print("%c", c);
	sys->print("\n");
	for (c = '0'; c <= '9'; c++)
		sys->print("%c=%d ", c, c);
	sys->print("\n");
	key := 13;
	for (c = 'a'; c <= 'z'; c++)
		sys->print("%c", (c - 'a' + key) % 26 + 'a');
	sys->print("\n");
	for (c = ' '; c < 127; c++) {
		sys->print("%c", c);
		if (c % 32 == 31)
			sys->print("\n");
	}
	sys->print("\n%c%c%c%c%c\n", 'H', 'i', '\t', '\'', '\\');
	vowels := 0;
	for (c = 'a'; c <= 'z'; c++)
		if (c == 'a' || c == 'e' || c == 'i' || c == 'o' || c == 'u')
			vowels++;
	sys->print("%d vowels, 100%% sure, \"quoted\"\n", vowels);
}
