/* Sets that are joined: a forest with ranks and shortened ways, for the regions of a picture and a spanning tree of least weight. */
int putchar(int);

enum { HEIGHT = 8, WIDTH = 24, CELLS = HEIGHT * WIDTH, EDGES = 21 };

struct Set {
    struct Set *parent;
    int rank, size;
};

struct Edge {
    int a, b, weight;
};

static struct Set sets[CELLS];

static void put_unsigned(unsigned n)
{
    if (n >= 10)
        put_unsigned(n / 10);
    putchar('0' + (int)(n % 10));
}

static void make_sets(int count)
{
    int i;
    for (i = 0; i < count; i++) {
        sets[i].parent = &sets[i];
        sets[i].rank = 0;
        sets[i].size = 1;
    }
}

static struct Set *root_of(struct Set *set)
{
    while (set->parent != set) {
        set->parent = set->parent->parent;
        set = set->parent;
    }
    return set;
}

static int join(struct Set *a, struct Set *b)
{
    a = root_of(a);
    b = root_of(b);
    if (a == b)
        return 0;
    if (a->rank < b->rank) {
        struct Set *kept = a;
        a = b;
        b = kept;
    }
    b->parent = a;
    a->size += b->size;
    a->rank += a->rank == b->rank;
    return 1;
}

static int count_regions(const char *picture)
{
    int i, regions = 0;
    make_sets(CELLS);
    for (i = 0; i < CELLS; i++) {
        if (i % WIDTH && picture[i] == picture[i - 1])
            join(&sets[i], &sets[i - 1]);
        if (i >= WIDTH && picture[i] == picture[i - WIDTH])
            join(&sets[i], &sets[i - WIDTH]);
    }
    for (i = 0; i < CELLS; i++)
        regions += sets[i].parent == &sets[i];
    return regions;
}

static int least_weight(struct Edge *edges, int places)
{
    int i, j, total = 0;
    for (i = 1; i < EDGES; i++)
        for (j = i; j > 0 && edges[j].weight < edges[j - 1].weight; j--) {
            struct Edge kept = edges[j];
            edges[j] = edges[j - 1];
            edges[j - 1] = kept;
        }
    make_sets(places);
    for (i = 0; i < EDGES; i++)
        if (join(&sets[edges[i].a], &sets[edges[i].b]))
            total += edges[i].weight;
    return total;
}

int main(void)
{
    char picture[CELLS];
    struct Edge edges[EDGES];
    int i, j, n = 0, greatest = 0, weight;
    for (i = 0; i < CELLS; i++) {
        picture[i] = (i % WIDTH * 3 + i / WIDTH * 5) % 11 < 5 ? '#' : '.';
        putchar(picture[i]);
        if (i % WIDTH == WIDTH - 1)
            putchar('\n');
    }
    put_unsigned(count_regions(picture));
    for (i = 0; i < CELLS; i++)
        if (root_of(&sets[i])->size > greatest)
            greatest = root_of(&sets[i])->size;
    putchar(' ');
    put_unsigned(greatest);
    putchar('\n');
    for (i = 0; i < 7; i++)
        for (j = 0; j < i; j++) {
            edges[n].a = i;
            edges[n].b = j;
            edges[n++].weight = (i * 13 + j * 29) % 17 + 1;
        }
    weight = least_weight(edges, 7);
    return weight;
}
