implement BitReverse;

include "sys.m";
	sys: Sys;

include "draw.m";

BitReverse: module
{
	init: fn(nil: ref Draw->Context, nil: list of string);
};

# Reverses the bits of ints and of bytes, and the bytes of an int.

reverse(n: int): int
{
	r := 0;
	for (i := 0; i < 32; i++) {
		r = r << 1 | n & 1;
		n >>= 1;
	}
	return r;
}

reversebyte(b: byte): byte
{
	b = (b & byte 16rF0) >> 4 | (b & byte 16r0F) << 4;
	b = (b & byte 16rCC) >> 2 | (b & byte 16r33) << 2;
	b = (b & byte 16rAA) >> 1 | (b & byte 16r55) << 1;
	return b;
}

swap(n: int): int
{
	return n << 24 | (n & 16rff00) << 8 | n >> 8 & 16rff00 | n >> 24 & 16rff;
}

init(nil: ref Draw->Context, nil: list of string)
{
	sys = load Sys Sys->PATH;
	n := 1;
	for (i := 0; i < 12; i++) {
		sys->print("%x %x %x\n", n, reverse(n), swap(n));
		n = n * -7 + 1000;
	}
	for (b := byte 0; b < byte 20; b++)
		sys->print("%d ", reversebyte(b));
	sys->print("%d %d\n", reversebyte(byte 255), reversebyte(byte 100));
	same := 0;
	for (i = 0; i < 256; i++)
		if (reversebyte(byte i) == byte i)
			same++;
	sys->print("%d bytes are palindromes\n", same);
}
