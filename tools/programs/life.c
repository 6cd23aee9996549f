/* Conway's Game of Life on a torus: a glider and a blinker, drawn now and then. */
int putchar(int);

enum { HEIGHT = 12, WIDTH = 20 };

typedef char Board[HEIGHT][WIDTH];

static Board boards[2];

static void place(Board board, int y, int x, const char *row)
{
    for (; *row; row++)
        board[y][x++] = *row == '#';
}

static int neighbours(Board board, int y, int x)
{
    int dy, dx, count = 0;
    for (dy = HEIGHT - 1; dy <= HEIGHT + 1; dy++)
        for (dx = WIDTH - 1; dx <= WIDTH + 1; dx++)
            if (dy != HEIGHT || dx != WIDTH)
                count += board[(y + dy) % HEIGHT][(x + dx) % WIDTH];
    return count;
}

static int step(Board now, Board next)
{
    int y, x, alive = 0;
    for (y = 0; y < HEIGHT; y++)
        for (x = 0; x < WIDTH; x++) {
            int near = neighbours(now, y, x);
            next[y][x] = near == 3 || near == 2 && now[y][x];
            alive += next[y][x];
        }
    return alive;
}

static void draw(Board board)
{
    int y, x;
    for (y = 0; y < HEIGHT; y++) {
        for (x = 0; x < WIDTH; x++)
            putchar(board[y][x] ? '#' : '.');
        putchar('\n');
    }
    putchar('\n');
}

int main(void)
{
    int turn, alive = 0;
    place(boards[0], 1, 2, "..#");
    place(boards[0], 2, 2, "#.#");
    place(boards[0], 3, 2, ".##");
    place(boards[0], 8, 14, "###");
    for (turn = 0; turn < 24; turn++) {
        if (turn % 8 == 0)
            draw(boards[turn % 2]);
        alive = step(boards[turn % 2], boards[(turn + 1) % 2]);
    }
    return alive;
}
