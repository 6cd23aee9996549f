/* Writes its input, read in pieces of several lengths, and then what it has counted. */
#include "support.h"

static char piece[5000];

int main(void)
{
	static const unsigned lengths[] = {1, 7, 64, 4096, 5000};
	unsigned total = 0, lines = 0, count, i = 0;
	while ((count = read_bytes(piece, lengths[i % 5])) != 0) {
		total += write_bytes(piece, count);
		while (count--)
			lines += piece[count] == '\n';
		i++;
	}
	print_line("\nbytes", total);
	print_line("lines", lines);
	print_line("at the end", read_bytes(piece, 100));
	return total + 3;
}
