/* Eight queens on a board, none of which attacks another: the first of the 92 ways is drawn, and all are counted. */
int putchar(int);

enum { SIZE = 8 };

static int columns[SIZE], ways;

static int is_free(int row, int column) {
	int i;
	for (i = 0; i < row; i++) {
		int apart = columns[i] - column;
		if (apart == 0 || apart == row - i || apart == i - row)
			return 0;
	}
	return 1;
}

static void draw(void) {
	int row, column;
	for (row = 0; row < SIZE; row++) {
		for (column = 0; column < SIZE; column++)
			putchar(columns[row] == column ? 'Q' : '.');
		putchar('\n');
	}
}

static void place(int row) {
	int column;
	if (row == SIZE) {
		if (ways++ == 0)
			draw();
		return;
	}
	for (column = 0; column < SIZE; column++)
		if (is_free(row, column)) {
			columns[row] = column;
			place(row + 1);
		}
}

int main(void) {
	place(0);
	return ways;
}
