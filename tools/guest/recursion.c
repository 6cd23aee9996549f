/* Functions that call themselves, each other, and by pointers. */
#include "support.h"

static unsigned ackermann(unsigned m, unsigned n)
{
	if (m == 0)
		return n + 1;
	return ackermann(m - 1, n == 0 ? 1 : ackermann(m, n - 1));
}

static int is_odd(int n);

static int is_even(int n)
{
	return n == 0 ? 1 : is_odd(n - 1);
}

static int is_odd(int n)
{
	return n == 0 ? 0 : is_even(n - 1);
}

static unsigned moves;

static void towers(int count, char from, char to, char over)
{
	if (count == 0)
		return;
	towers(count - 1, from, over, to);
	moves = moves * 3 + (from - 'a') + 2 * (to - 'a');
	towers(count - 1, over, to, from);
}

static int queens(int row, unsigned columns, unsigned left, unsigned right)
{
	int found = 0;
	if (row == 6)
		return 1;
	for (int i = 0; i < 6; i++) {
		unsigned bit = 1u << i;
		if (!((columns | left | right) & bit))
			found += queens(row + 1, columns | bit, (left | bit) << 1, (right | bit) >> 1);
	}
	return found;
}

static void permute(char *letters, int from, int count)
{
	if (from == count) {
		write_bytes(letters, count);
		print(" ");
	}
	for (int i = from; i < count; i++) {
		char kept = letters[from];
		letters[from] = letters[i];
		letters[i] = kept;
		permute(letters, from + 1, count);
		letters[i] = letters[from];
		letters[from] = kept;
	}
}

static int sum_of_ten(int a, int b, int c, int d, int e, int f, int g, int h, int i, int j)
{
	return a - b + 2 * c - d + 3 * e - f + 5 * g - h + 7 * i - 11 * j;
}

static int fold(int (*step)(int, int), int start, int count)
{
	return count == 0 ? start : step(fold(step, start, count - 1), count);
}

static int times_three(int a, int b)
{
	return a * 3 + b;
}

static int or_shifted(int a, int b)
{
	return a << 1 | (b & 1);
}

int main(void)
{
	char letters[] = "wxyz";
	print_line("ackermann", ackermann(2, 9));
	print_line("even", is_even(501) + 2 * is_odd(501));
	towers(8, 'a', 'b', 'c');
	print_line("towers", moves);
	print_line("queens", queens(0, 0, 0, 0));
	permute(letters, 0, 4);
	print("\n");
	print_signed(sum_of_ten(1, 2, 3, 4, 5, 6, 7, 8, 9, 10));
	print("\n");
	print_line("folds", fold(times_three, 1, 30) ^ fold(or_shifted, 1, 20));
	if (queens(0, 0, 0, 0) == 4)
		leave(ackermann(1, 5) + 256);
	return 1;
}
