/* All ways to put n queens on a board so that none attacks another: columns and diagonals as sets of bits, and the first board drawn. */
int putchar(int);

enum { MOST = 10 };

struct Search {
    int size, found;
    int columns[MOST];
};

static void put_unsigned(unsigned n)
{
    if (n >= 10)
        put_unsigned(n / 10);
    putchar('0' + (int)(n % 10));
}

static void draw(const struct Search *search)
{
    int row, column;
    for (row = 0; row < search->size; row++) {
        for (column = 0; column < search->size; column++)
            putchar(search->columns[row] == column ? 'Q' : '-');
        putchar('\n');
    }
}

static void put(struct Search *search, int row, unsigned taken, unsigned left, unsigned right)
{
    int column;
    if (row == search->size) {
        if (search->found++ == 0)
            draw(search);
        return;
    }
    for (column = 0; column < search->size; column++) {
        unsigned bit = 1u << column;
        if (bit & (taken | left | right))
            continue;
        search->columns[row] = column;
        put(search, row + 1, taken | bit, (left | bit) << 1, (right | bit) >> 1);
    }
}

int main(void)
{
    struct Search search;
    for (search.size = 1; search.size <= 7; search.size++) {
        search.found = 0;
        put(&search, 0, 0, 0, 0);
        put_unsigned(search.size);
        putchar(':');
        put_unsigned(search.found);
        putchar('\n');
    }
    return search.found;
}
