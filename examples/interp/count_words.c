/* Counts lines, words and bytes of the input, as wc does. */
int getchar(void);
int putchar(int);

static void put_number(int n) {
	if (n >= 10)
		put_number(n / 10);
	putchar('0' + n % 10);
}

int main(void) {
	int c, lines = 0, words = 0, bytes = 0, is_inside = 0;
	while ((c = getchar()) != -1) {
		int is_blank = c == ' ' || c == '\n' || c == '\t';
		bytes++;
		lines += c == '\n';
		words += !is_blank && !is_inside;
		is_inside = !is_blank;
	}
	put_number(lines);
	putchar(' ');
	put_number(words);
	putchar(' ');
	put_number(bytes);
	putchar('\n');
	return 0;
}
