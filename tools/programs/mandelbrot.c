/* The Mandelbrot set in letters, with 12 bits behind the point. */
int putchar(int);

enum { SHIFT = 12, ONE = 1 << SHIFT, TURNS = 24 };

static int escape(int cx, int cy)
{
    int x = 0, y = 0, turn;
    for (turn = 0; turn < TURNS; turn++) {
        int xx = x * x >> SHIFT, yy = y * y >> SHIFT;
        if (xx + yy > 4 * ONE)
            break;
        y = (x * y >> (SHIFT - 1)) + cy;
        x = xx - yy + cx;
    }
    return turn;
}

int main(void)
{
    static const char shades[] = " .,:;+*oxX%#@";
    int row, column, inside = 0;
    for (row = -8; row <= 8; row++) {
        for (column = -34; column <= 16; column++) {
            int turns = escape(column * ONE / 16, row * ONE / 7);
            inside += turns == TURNS;
            putchar(shades[turns / 2]);
        }
        putchar('\n');
    }
    return inside & 255;
}
