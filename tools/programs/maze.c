/* A maze dug by a walk that turns back where it can go no further, and the way through it marked by a search from the end. */
int putchar(int);

enum { HEIGHT = 13, WIDTH = 37, WALL = '#', FLOOR = ' ', MARK = '.' };

struct Place {
    int y, x;
};

static const struct Place ways[4] = { { -1, 0 }, { 0, 1 }, { 1, 0 }, { 0, -1 } };
static char maze[HEIGHT][WIDTH];
static int distance[HEIGHT][WIDTH];
static unsigned seed = 4;

static int chance(int n)
{
    seed = seed * 1103515245u + 12345u;
    return (seed >> 16) % n;
}

static int is_wall(int y, int x)
{
    return y > 0 && y < HEIGHT && x > 0 && x < WIDTH && maze[y][x] == WALL;
}

static void dig(int y, int x)
{
    int first = chance(4), i;
    maze[y][x] = FLOOR;
    for (i = 0; i < 4; i++) {
        const struct Place *way = &ways[(first + i * (1 + first % 2 * 2)) % 4];
        if (is_wall(y + 2 * way->y, x + 2 * way->x)) {
            maze[y + way->y][x + way->x] = FLOOR;
            dig(y + 2 * way->y, x + 2 * way->x);
        }
    }
}

static void measure(int y, int x)
{
    struct Place queue[HEIGHT * WIDTH];
    int first = 0, last = 0, i;
    queue[last].y = y;
    queue[last++].x = x;
    distance[y][x] = 1;
    while (first < last) {
        struct Place at = queue[first++];
        for (i = 0; i < 4; i++) {
            struct Place next = at;
            next.y += ways[i].y;
            next.x += ways[i].x;
            if (maze[next.y][next.x] == FLOOR && distance[next.y][next.x] == 0) {
                distance[next.y][next.x] = distance[at.y][at.x] + 1;
                queue[last++] = next;
            }
        }
    }
}

static int mark(int y, int x)
{
    int steps = 0, i;
    while (distance[y][x] > 1) {
        maze[y][x] = MARK;
        steps++;
        for (i = 0; distance[y + ways[i].y][x + ways[i].x] != distance[y][x] - 1; i++)
            ;
        y += ways[i].y;
        x += ways[i].x;
    }
    maze[y][x] = MARK;
    return steps;
}

int main(void)
{
    int y, x, steps;
    for (y = 0; y < HEIGHT; y++)
        for (x = 0; x < WIDTH; x++)
            maze[y][x] = WALL;
    dig(1, 1);
    measure(HEIGHT - 2, WIDTH - 2);
    steps = mark(1, 1);
    for (y = 0; y < HEIGHT; y++) {
        for (x = 0; x < WIDTH; x++)
            putchar(maze[y][x]);
        putchar('\n');
    }
    return steps;
}
