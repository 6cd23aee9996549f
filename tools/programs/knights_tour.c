/* A knight's tour by Warnsdorff's rule: always on to the square from which the fewest ways lead. */
int putchar(int);

enum { SIZE = 8 };

struct Square {
    int y, x;
};

static const struct Square jumps[8] = { { 1, 2 }, { 2, 1 }, { 2, -1 }, { 1, -2 }, { -1, -2 }, { -2, -1 }, { -2, 1 }, { -1, 2 } };
static unsigned char board[SIZE][SIZE];

static unsigned char *square(int y, int x)
{
    return y >= 0 && y < SIZE && x >= 0 && x < SIZE ? &board[y][x] : 0;
}

static int ways(int y, int x)
{
    int i, count = 0;
    for (i = 0; i < 8; i++) {
        unsigned char *next = square(y + jumps[i].y, x + jumps[i].x);
        count += next && *next == 0;
    }
    return count;
}

static int go_on(struct Square *at)
{
    int i, least = 9;
    const struct Square *best = 0;
    for (i = 0; i < 8; i++) {
        unsigned char *next = square(at->y + jumps[i].y, at->x + jumps[i].x);
        if (next && *next == 0) {
            int count = ways(at->y + jumps[i].y, at->x + jumps[i].x);
            if (count < least) {
                least = count;
                best = &jumps[i];
            }
        }
    }
    if (!best)
        return 0;
    at->y += best->y;
    at->x += best->x;
    return 1;
}

int main(void)
{
    struct Square at = { 0, 0 };
    int move = 0, y, x;
    do
        board[at.y][at.x] = ++move;
    while (go_on(&at));
    for (y = 0; y < SIZE; y++)
        for (x = 0; x < SIZE; x++) {
            putchar(board[y][x] >= 10 ? '0' + board[y][x] / 10 : ' ');
            putchar('0' + board[y][x] % 10);
            putchar(x + 1 < SIZE ? ' ' : '\n');
        }
    return move;
}
