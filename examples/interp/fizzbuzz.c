/* Counts, with Fizz for multiples of three and Buzz for those of five. */
int putchar(int);

static void put(const char *text) {
	while (*text)
		putchar(*text++);
}

static void put_number(int n) {
	if (n >= 10)
		put_number(n / 10);
	putchar('0' + n % 10);
}

int main(void) {
	int n;
	for (n = 1; n <= 30; n++) {
		if (n % 3 == 0)
			put("Fizz");
		if (n % 5 == 0)
			put("Buzz");
		if (n % 3 && n % 5)
			put_number(n);
		putchar(n % 10 ? ' ' : '\n');
	}
	return 0;
}
