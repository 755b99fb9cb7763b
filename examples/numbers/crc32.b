implement Crc32;
include "sys.m";
	sys: Sys;
include "draw.m";
Crc32: module
{
	init:	fn(ctxt: ref Draw->Context, argv: list of string);
};

# The CRC-32 of the digits 123456789, bit by bit, and of some longer texts of numbers.
init(nil: ref Draw->Context, nil: list of string)
{
	sys = load Sys Sys->PATH;
	crc := -1;
	for (c := '1'; c <= '9'; c++)
		crc = update(crc, c);
	sys->print("%x\n", ~crc);

	crc = -1;
	for (i := 0; i < 1000; i++)
		crc = update(crc, i & 255);
	sys->print("%x\n", crc ^ -1);

	crc = -1;
	for (c = 'a'; c <= 'z'; c++) {
		crc = update(crc, c);
		sys->print("%c %x\n", c, ~crc);
	}
}

update(crc: int, c: int): int
{
	crc ^= c;
	for (k := 0; k < 8; k++) {
		low := crc & 1;
		crc = (crc >> 1) & 16r7FFFFFFF;
		if (low != 0)
			crc ^= 16rEDB88320;
	}
	return crc;
}
