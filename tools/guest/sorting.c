/* Four ways to sort, on numbers of several widths and signs. */
#include "support.h"

enum { COUNT = 300 };

static int numbers[COUNT], spare[COUNT];

static void fill(void)
{
	for (int i = 0; i < COUNT; i++)
		numbers[i] = (int)(next_number() << 8) >> (next_number() % 24);
}

static void insertion_sort(int *from, int count)
{
	for (int i = 1; i < count; i++) {
		int moved = from[i], j = i;
		for (; j > 0 && from[j - 1] > moved; j--)
			from[j] = from[j - 1];
		from[j] = moved;
	}
}

static void exchange(int *a, int *b)
{
	int kept = *a;
	*a = *b;
	*b = kept;
}

static void sift(int *from, int at, int count)
{
	for (int child; (child = 2 * at + 1) < count; at = child) {
		if (child + 1 < count && from[child + 1] > from[child])
			child++;
		if (from[at] >= from[child])
			return;
		exchange(from + at, from + child);
	}
}

static void heap_sort(int *from, int count)
{
	for (int i = count / 2; i-- > 0;)
		sift(from, i, count);
	for (int i = count; i-- > 1;) {
		exchange(from, from + i);
		sift(from, 0, i);
	}
}

static void quick_sort(int *from, int count)
{
	while (count > 1) {
		int middle = from[count / 2], low = 0, high = count - 1;
		while (low <= high) {
			while (from[low] < middle)
				low++;
			while (from[high] > middle)
				high--;
			if (low <= high)
				exchange(from + low++, from + high--);
		}
		quick_sort(from, high + 1);
		from += low;
		count -= low;
	}
}

static void merge_sort(int *from, int count)
{
	if (count < 2)
		return;
	int half = count / 2, left = 0, right = half, at = 0;
	merge_sort(from, half);
	merge_sort(from + half, count - half);
	while (left < half && right < count)
		spare[at++] = from[left] <= from[right] ? from[left++] : from[right++];
	while (left < half)
		spare[at++] = from[left++];
	memcpy(from, spare, at * sizeof *from);
}

static int small_orders(void)
{
	signed char c[64];
	byte b[64];
	short s[64];
	unsigned short u[64];
	int sum = 0;
	for (int i = 0; i < 64; i++)
		c[i] = b[i] = s[i] = u[i] = next_number();
	for (int i = 0; i < 64; i++)
		for (int j = 0; j < i; j++)
			sum += (c[i] < c[j]) + 3 * (b[i] < b[j]) + 5 * (s[i] < s[j]) + 7 * (u[i] < u[j]);
	return sum;
}

static void show(const char *name)
{
	unsigned mixed = 0;
	for (int i = 0; i < COUNT; i++) {
		mixed = mixed * 31 + (unsigned)numbers[i];
		if (i && numbers[i - 1] > numbers[i])
			print("out of order\n");
	}
	print_line(name, mixed);
	print_signed(numbers[0]);
	print(" ");
	print_signed(numbers[COUNT - 1]);
	print("\n");
}

int main(void)
{
	static void (*const sorts[])(int *, int) = {insertion_sort, heap_sort, quick_sort, merge_sort};
	static const char *const names[] = {"insertion", "heap", "quick", "merge"};
	for (int i = 0; i < 4; i++) {
		fill();
		sorts[i](numbers, COUNT);
		show(names[i]);
	}
	return small_orders();
}
