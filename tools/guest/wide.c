/* Arithmetic of 64 bits, for which the compiler calls its own library. */
#include "support.h"

typedef long long wide;
typedef unsigned long long uwide;

static void show(uwide number)
{
	print_hexadecimal(number >> 32);
	print_hexadecimal(number);
	print(" ");
}

static const uwide edges[] = {
	0, 1, 2, 10, 0x7FFFFFFF, 0x80000000, 0xFFFFFFFF, 0x100000000, 0x123456789ABCDEF0,
	0x7FFFFFFFFFFFFFFF, 0x8000000000000001, 0xFFFFFFFF00000000, 0xFFFFFFFFFFFFFFFF,
};

enum { COUNT = sizeof edges / sizeof *edges };

static void show_pair(uwide a, uwide b)
{
	show(a + b);
	show(a - b);
	show(a * b);
	show(a < b);
	show((wide)a < (wide)b);
	if (b) {
		show(a / b);
		show(a % b);
		show((wide)a / (wide)b);
		show((wide)a % (wide)b);
	}
	print("\n");
}

static void show_shifts(uwide a)
{
	for (int by = 0; by < 64; by += 7) {
		show(a << by);
		show(a >> by);
		show((wide)a >> by);
	}
	print("\n");
}

int main(void)
{
	uwide factorial = 1;
	for (int i = 0; i < COUNT; i++) {
		show_shifts(edges[i]);
		for (int j = 0; j < COUNT; j++)
			show_pair(edges[i], edges[j]);
	}
	for (int i = 1; i <= 20; i++)
		factorial *= i;
	while (factorial) {
		print_unsigned(factorial % 10);
		factorial /= 10;
	}
	print("\n");
	return 99;
}
