implement Fnv;
include "sys.m";
	sys: Sys;
include "draw.m";
Fnv: module
{
	init:	fn(ctxt: ref Draw->Context, argv: list of string);
};

# Hashes by FNV-1a of numbers, byte by byte, with ints and with bigs.

offset32: con 16r811C9DC5;
offset64: con 16rCBF29CE484222325;

hash32(n: int): int
{
	h := offset32;
	for (i := 0; i < 4; i++) {
		h ^= n & 255;
		h *= 16777619;
		n >>= 8;
	}
	return h;
}

hash64(n: big): big
{
	h := offset64;
	for (i := 0; i < 64; i += 8) {
		h ^= n >> i & big 255;
		h *= 1099511628211;
	}
	return h;
}

init(nil: ref Draw->Context, nil: list of string)
{
	sys = load Sys Sys->PATH;
	for (n := -5; n <= 5; n++)
		sys->print("%d: %x %bd\n", n, hash32(n), hash64(big n));
	a := offset32;
	a = (a ^ 'a') * 16777619;
	sys->print("a: %x\n", a);
	b := (offset64 ^ big 'a') * 16r100000001B3;
	sys->print("a: %x%x\n", int (b >> 32), int b);
	# in how many of 64 buckets hashes of 200 numbers fall
	used := big 0;
	for (n = 0; n < 200; n++)
		used |= big 1 << (hash32(n) & 63);
	c := 0;
	for (; used != big 0; used &= used - big 1)
		c++;
	sys->print("buckets: %d\n", c);
}
