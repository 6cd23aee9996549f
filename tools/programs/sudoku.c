/* Solves a Sudoku by trying at the square with the fewest digits left, with sets of bits for rows, columns and boxes. */
int putchar(int);

struct Sudoku {
    char digits[81];
    unsigned rows[9], columns[9], boxes[9];
    int tries;
};

static int box_of(int square)
{
    return square / 27 * 3 + square % 9 / 3;
}

static unsigned left_at(const struct Sudoku *s, int square)
{
    return 0x3fe & ~(s->rows[square / 9] | s->columns[square % 9] | s->boxes[box_of(square)]);
}

static void flip(struct Sudoku *s, int square, int digit)
{
    unsigned bit = 1u << digit;
    s->rows[square / 9] ^= bit;
    s->columns[square % 9] ^= bit;
    s->boxes[box_of(square)] ^= bit;
}

static int bits_in(unsigned set)
{
    int count = 0;
    for (; set; set &= set - 1)
        count++;
    return count;
}

static int solve(struct Sudoku *s)
{
    int square, best = -1, fewest = 10, digit;
    for (square = 0; square < 81; square++)
        if (!s->digits[square]) {
            int count = bits_in(left_at(s, square));
            if (count < fewest) {
                fewest = count;
                best = square;
            }
        }
    if (best < 0)
        return 1;
    for (digit = 1; digit <= 9; digit++)
        if (left_at(s, best) >> digit & 1) {
            s->tries++;
            s->digits[best] = digit;
            flip(s, best, digit);
            if (solve(s))
                return 1;
            flip(s, best, digit);
        }
    s->digits[best] = 0;
    return 0;
}

int main(void)
{
    static const char *const given[9] = {
        "53..7....", "6..195...", ".98....6.", "8...6...3", "4..8.3..1", "7...2...6", ".6....28.", "...419..5", "....8..79",
    };
    struct Sudoku s = { { 0 }, { 0 }, { 0 }, { 0 }, 0 };
    int square;
    for (square = 0; square < 81; square++) {
        char c = given[square / 9][square % 9];
        if (c != '.') {
            s.digits[square] = c - '0';
            flip(&s, square, c - '0');
        }
    }
    if (!solve(&s))
        return 255;
    for (square = 0; square < 81; square++) {
        putchar('0' + s.digits[square]);
        if (square % 9 == 8)
            putchar('\n');
    }
    return s.tries;
}
