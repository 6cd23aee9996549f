/* The towers of Hanoi: which disc goes where. */
int putchar(int);

static int moves;

static void move(int discs, char from, char to, char other) {
	if (discs == 0)
		return;
	move(discs - 1, from, other, to);
	putchar('0' + discs);
	putchar(from);
	putchar(to);
	putchar(++moves % 8 ? ' ' : '\n');
	move(discs - 1, other, to, from);
}

int main(void) {
	move(4, 'a', 'c', 'b');
	putchar('\n');
	return moves;
}
