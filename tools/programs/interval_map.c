/* A map from ranges of numbers to values: setting a range cuts the ranges that it meets, and equal neighbours are joined. */
void *malloc(unsigned);
void free(void *);
int putchar(int);

struct Range {
    int from, to, value;
    struct Range *next;
};

static void put_unsigned(unsigned n)
{
    if (n >= 10)
        put_unsigned(n / 10);
    putchar('0' + (int)(n % 10));
}

static struct Range *range(int from, int to, int value, struct Range *next)
{
    struct Range *made = malloc(sizeof(struct Range));
    made->from = from;
    made->to = to;
    made->value = value;
    made->next = next;
    return made;
}

/* Takes the numbers from `from` to below `to` out of all ranges, and gives the link where they were. */
static struct Range **cut(struct Range **link, int from, int to)
{
    while (*link && (*link)->to <= from)
        link = &(*link)->next;
    if (*link && (*link)->from < from) {
        struct Range *met = *link;
        if (met->to > to)
            met->next = range(to, met->to, met->value, met->next);
        met->to = from;
        link = &met->next;
    }
    while (*link && (*link)->to <= to) {
        struct Range *gone = *link;
        *link = gone->next;
        free(gone);
    }
    if (*link && (*link)->from < to)
        (*link)->from = to;
    return link;
}

static void join(struct Range *list)
{
    while (list && list->next) {
        struct Range *next = list->next;
        if (list->to == next->from && list->value == next->value) {
            list->to = next->to;
            list->next = next->next;
            free(next);
        } else {
            list = next;
        }
    }
}

static void set(struct Range **map, int from, int to, int value)
{
    struct Range **link = cut(map, from, to);
    *link = range(from, to, value, *link);
    join(*map);
}

static int value_at(const struct Range *map, int at)
{
    for (; map; map = map->next)
        if (at >= map->from && at < map->to)
            return map->value;
    return -1;
}

static void print(const struct Range *map)
{
    for (; map; map = map->next) {
        putchar('[');
        put_unsigned(map->from);
        putchar(',');
        put_unsigned(map->to);
        putchar(')');
        putchar('=');
        put_unsigned(map->value);
        putchar(map->next ? ' ' : '\n');
    }
}

int main(void)
{
    struct Range *map = 0;
    int plain[100], i, k, wrong = 0;
    for (i = 0; i < 100; i++)
        plain[i] = -1;
    for (i = 0; i < 30; i++) {
        int from = i * 37 % 83, to = from + 1 + i * 11 % 17, value = i % 4;
        set(&map, from, to, value);
        for (k = from; k < to; k++)
            plain[k] = value;
        for (k = 0; k < 100; k++)
            wrong += value_at(map, k) != plain[k];
        if (i % 10 == 9)
            print(map);
    }
    cut(&map, 20, 60);
    print(map);
    cut(&map, 0, 1000);
    return map ? 255 : wrong;
}
