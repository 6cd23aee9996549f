#include "support.h"

void *memcpy(void *to, const void *from, unsigned count)
{
	byte *t = to;
	const byte *f = from;
	while (count--)
		*t++ = *f++;
	return to;
}

void *memmove(void *to, const void *from, unsigned count)
{
	byte *t = to;
	const byte *f = from;
	if (t <= f)
		return memcpy(to, from, count);
	while (count--)
		t[count] = f[count];
	return to;
}

void *memset(void *to, int value, unsigned count)
{
	byte *t = to;
	while (count--)
		*t++ = value;
	return to;
}

int memcmp(const void *left, const void *right, unsigned count)
{
	const byte *l = left, *r = right;
	for (; count; count--, l++, r++)
		if (*l != *r)
			return *l < *r ? -1 : 1;
	return 0;
}

unsigned strlen(const char *text)
{
	const char *end = text;
	while (*end)
		end++;
	return end - text;
}

int strcmp(const char *left, const char *right)
{
	while (*left && *left == *right) {
		left++;
		right++;
	}
	return (byte)*left - (byte)*right;
}

void print(const char *text)
{
	write_bytes(text, strlen(text));
}

void print_unsigned(unsigned number)
{
	char digits[10];
	unsigned at = sizeof digits;
	do {
		digits[--at] = '0' + number % 10;
		number /= 10;
	} while (number);
	write_bytes(digits + at, sizeof digits - at);
}

void print_signed(int number)
{
	if (number < 0)
		print("-");
	print_unsigned(number < 0 ? -(unsigned)number : (unsigned)number);
}

void print_hexadecimal(unsigned number)
{
	char digits[8];
	for (int i = 7; i >= 0; i--) {
		digits[i] = "0123456789abcdef"[number % 16];
		number /= 16;
	}
	write_bytes(digits, 8);
}

void print_line(const char *text, unsigned number)
{
	print(text);
	print(" ");
	print_hexadecimal(number);
	print("\n");
}

unsigned next_number(void)
{
	static unsigned number = 1;
	number = number * 1664525 + 1013904223;
	return number >> 8;
}
