/* Draws lines, circles and filled areas into a picture of letters that lies behind a pointer to rows. */
void *calloc(unsigned, unsigned);
void free(void *);
int putchar(int);

enum { HEIGHT = 18, WIDTH = 44 };

typedef char Row[WIDTH];

static Row *picture;

static char *dot(int x, int y)
{
    return x >= 0 && x < WIDTH && y >= 0 && y < HEIGHT ? &picture[y][x] : 0;
}

static void put(int x, int y, char colour)
{
    char *at = dot(x, y);
    if (at)
        *at = colour;
}

static int size(int n)
{
    return n < 0 ? -n : n;
}

static void line(int x, int y, int to_x, int to_y, char colour)
{
    int dx = size(to_x - x), dy = -size(to_y - y), error = dx + dy, twice;
    int step_x = x < to_x ? 1 : -1, step_y = y < to_y ? 1 : -1;
    for (;;) {
        put(x, y, colour);
        if (x == to_x && y == to_y)
            return;
        twice = 2 * error;
        if (twice >= dy) {
            error += dy;
            x += step_x;
        }
        if (twice <= dx) {
            error += dx;
            y += step_y;
        }
    }
}

static void circle(int x, int y, int radius, char colour)
{
    int a = radius, b = 0, error = 1 - radius;
    while (a >= b) {
        int i;
        for (i = 0; i < 4; i++) {
            int p = i & 1 ? a : -a, q = i & 2 ? b : -b;
            put(x + p, y + q, colour);
            put(x + q, y + p, colour);
        }
        b++;
        if (error > 0)
            error -= 2 * --a;
        error += 2 * b + 1;
    }
}

static int fill(int x, int y, char colour)
{
    char *at = dot(x, y);
    if (!at || *at)
        return 0;
    *at = colour;
    return 1 + fill(x + 1, y, colour) + fill(x - 1, y, colour) + fill(x, y + 1, colour) + fill(x, y - 1, colour);
}

int main(void)
{
    int x, y, filled;
    picture = calloc(HEIGHT, sizeof(Row));
    line(0, 0, WIDTH - 1, 0, '-');
    line(0, HEIGHT - 1, WIDTH - 1, HEIGHT - 1, '-');
    line(2, 14, 40, 3, '*');
    line(40, 12, 50, 30, '*');
    circle(14, 8, 6, 'o');
    filled = fill(14, 5, '.') + fill(12, 13, '+');
    for (y = 0; y < HEIGHT; y++) {
        for (x = 0; x < WIDTH; x++)
            putchar(picture[y][x] ? picture[y][x] : ' ');
        putchar('\n');
    }
    free(picture);
    return filled & 255;
}
