implement HexTable;
include "sys.m"; sys: Sys;
include "draw.m";
HexTable: module { init: fn(ctxt: ref Draw->Context, argv: list of string); };

# Numbers by %x: a table of sixteen rows, powers, negative ones, and numbers with a radix.

init(nil: ref Draw->Context, nil: list of string)
{
	sys = load Sys Sys->PATH;
	for (r := 0; r < 16; r++) {
		for (c := 0; c < 16; c++) {
			if (r == 0) sys->print("0");
			sys->print("%x ", r << 4 | c);
		}
		sys->print("\n");
	}
	p := 1;
	do {
		sys->print("%x ", p);
		p *= 2;
	} while (p != 0);
	sys->print("\n%x %x %x %x\n", -1, -2, -256, -2147483647);
	sys->print("%d %d %d %d %d\n", 16rCAFE, 16rcafe, 2r101010, 8r777, 36rzz);
	sys->print("%d %d %x %bd\n", 16rFFFFFFFF, 16r80000000, 3r1000, 16r100000000);
	sys->print("%x %x\n", int 16r123456789ABCDEF0, int (16r123456789ABCDEF0 >> 32));
}
