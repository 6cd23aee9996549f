/* Records, bit fields, unions, numbers of all widths, and a jump table. */
#include "support.h"

struct small {
	char a;
	short b;
	signed char c;
	unsigned short d;
	int e;
};

struct packed {
	unsigned first : 3;
	int second : 5;
	unsigned third : 17;
	int fourth : 7;
};

union view {
	unsigned word;
	unsigned short halves[2];
	byte bytes[4];
	struct packed bits;
};

static struct small turned(struct small s)
{
	struct small t = {s.c, s.d, s.a, s.b, -s.e};
	return t;
}

static void show_small(struct small s)
{
	print_signed(s.a);
	print(" ");
	print_signed(s.b);
	print(" ");
	print_signed(s.c);
	print(" ");
	print_signed(s.d);
	print(" ");
	print_signed(s.e);
	print("\n");
}

static void show_view(unsigned word)
{
	union view v = {word};
	print_line("halves", v.halves[0] - v.halves[1]);
	print_line("bytes", v.bytes[0] * 7 + v.bytes[1] * 5 + v.bytes[2] * 3 - v.bytes[3]);
	print_signed(v.bits.first + v.bits.second);
	print(" ");
	print_signed(v.bits.fourth - (int)v.bits.third);
	print("\n");
	v.bits.second++;
	v.bits.third *= 5;
	print_line("changed", v.word);
}

static int performed(int operation, int a, int b)
{
	switch (operation) {
	case 0: return a + b;
	case 1: return a - b;
	case 2: return a * b;
	case 3: return b ? a / b : -1;
	case 4: return b ? a % b : a;
	case 5: return a & b;
	case 6: return a | b;
	case 7: return a ^ b;
	case 8: return a < b;
	case 9: return (unsigned)a < (unsigned)b;
	case 10: return a >> (b & 31);
	case 11: return (unsigned)a >> (b & 31);
	default: return ~a;
	}
}

static int converted(int n)
{
	return (signed char)n + 2 * (byte)n + 3 * (short)n + 5 * (unsigned short)n + 7 * (n == (char)n);
}

int main(void)
{
	static const int numbers[] = {0, 1, -1, 127, 128, -128, 255, 256, 32767, 32768, -32768, 65535, 1000003, 0x7FFFFFF};
	unsigned mixed = 0;
	struct small s = {'x', -30000, -100, 60000, 123456789};
	for (int i = 0; i < 3; i++) {
		show_small(s);
		s = turned(s);
	}
	for (int i = 0; i < 14; i++) {
		show_view((unsigned)numbers[i] * 2654435761u);
		print_line("converted", (unsigned)converted(numbers[i]));
		for (int operation = 0; operation < 14; operation++)
			mixed = mixed * 17 + (unsigned)performed(operation, numbers[i] % 40000, numbers[13 - i] % 40000);
	}
	print_line("operations", mixed);
	return -3;
}
