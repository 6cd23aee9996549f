/* Shapes with tables of functions: each kind says how it is measured and drawn, and one function serves all. */
void *malloc(unsigned);
void free(void *);
int putchar(int);

struct Shape;

struct Methods {
    const char *name;
    int (*area)(const struct Shape *);
    int (*covers)(const struct Shape *, int, int);
};

struct Shape {
    const struct Methods *methods;
    int x, y, width, height;
    struct Shape *below;
};

static void put_text(const char *text)
{
    while (*text)
        putchar(*text++);
}
static void put_unsigned(unsigned n)
{
    if (n >= 10)
        put_unsigned(n / 10);
    putchar('0' + (int)(n % 10));
}

static int box_area(const struct Shape *shape)
{
    return shape->width * shape->height;
}

static int box_covers(const struct Shape *shape, int x, int y)
{
    return x >= shape->x && x < shape->x + shape->width && y >= shape->y && y < shape->y + shape->height;
}

static int triangle_area(const struct Shape *shape)
{
    return shape->width * shape->height / 2;
}

static int triangle_covers(const struct Shape *shape, int x, int y)
{
    return box_covers(shape, x, y) && (x - shape->x) * shape->height <= (y - shape->y) * shape->width;
}

static int disc_area(const struct Shape *shape)
{
    return 355 * shape->width * shape->width / (113 * 4);
}

static int disc_covers(const struct Shape *shape, int x, int y)
{
    int dx = 2 * (x - shape->x) - shape->width + 1, dy = 2 * (y - shape->y) - shape->width + 1;
    return dx * dx + dy * dy <= shape->width * shape->width;
}

static const struct Methods box = { "box", box_area, box_covers };
static const struct Methods triangle = { "triangle", triangle_area, triangle_covers };
static const struct Methods disc = { "disc", disc_area, disc_covers };

static struct Shape *over(struct Shape *below, const struct Methods *methods, int x, int y, int width, int height)
{
    struct Shape *shape = malloc(sizeof(struct Shape));
    shape->methods = methods;
    shape->x = x;
    shape->y = y;
    shape->width = width;
    shape->height = height;
    shape->below = below;
    return shape;
}

static const struct Shape *top_at(const struct Shape *shape, int x, int y)
{
    while (shape && !shape->methods->covers(shape, x, y))
        shape = shape->below;
    return shape;
}

int main(void)
{
    struct Shape *picture = over(0, &box, 2, 1, 30, 8), *shape;
    int x, y, total = 0;
    picture = over(picture, &triangle, 20, 2, 16, 9);
    picture = over(picture, &disc, 5, 2, 9, 9);
    for (y = 0; y < 12; y++) {
        for (x = 0; x < 40; x++) {
            const struct Shape *top = top_at(picture, x, y);
            putchar(top ? top->methods->name[0] : '.');
        }
        putchar('\n');
    }
    while (picture) {
        shape = picture;
        picture = shape->below;
        total += shape->methods->area(shape);
        put_text(shape->methods->name);
        putchar(' ');
        put_unsigned(shape->methods->area(shape));
        putchar('\n');
        free(shape);
    }
    return total & 255;
}
