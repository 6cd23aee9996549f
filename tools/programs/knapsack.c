/* What to pack: the greatest worth within a weight by a table, the choice read back from it, and all of it again by trying with bounds. */
void *malloc(unsigned);
void free(void *);
int putchar(int);

struct Item {
    const char *name;
    int weight, worth;
};

enum { ITEMS = 8, ROOM = 40 };

static const struct Item items[ITEMS] = {
    { "tent", 15, 60 }, { "stove", 9, 35 }, { "rope", 8, 24 }, { "map", 1, 20 }, { "lamp", 4, 18 }, { "axe", 11, 30 }, { "food", 12, 70 }, { "book", 3, 5 },
};

static void put_text(const char *text)
{
    while (*text)
        putchar(*text++);
}
static void put_unsigned(unsigned n)
{
    if (n >= 10)
        put_unsigned(n / 10);
    putchar('0' + (int)(n % 10));
}

static int **table(int rows, int columns)
{
    int **made = malloc(rows * sizeof(int *)), i, k;
    for (i = 0; i < rows; i++) {
        made[i] = malloc(columns * sizeof(int));
        for (k = 0; k < columns; k++)
            made[i][k] = 0;
    }
    return made;
}

static void release(int **rows, int count)
{
    while (count-- > 0)
        free(rows[count]);
    free(rows);
}

static int pack(int **best)
{
    int i, room;
    for (i = 0; i < ITEMS; i++)
        for (room = 0; room <= ROOM; room++) {
            best[i + 1][room] = best[i][room];
            if (items[i].weight <= room && best[i][room - items[i].weight] + items[i].worth > best[i + 1][room])
                best[i + 1][room] = best[i][room - items[i].weight] + items[i].worth;
        }
    return best[ITEMS][ROOM];
}

static int print_choice(int **best)
{
    int i, room = ROOM;
    for (i = ITEMS; i > 0; i--)
        if (best[i][room] != best[i - 1][room]) {
            put_text(items[i - 1].name);
            putchar(' ');
            room -= items[i - 1].weight;
        }
    putchar('\n');
    return ROOM - room;
}

static int rest_from(int i)
{
    int sum = 0;
    for (; i < ITEMS; i++)
        sum += items[i].worth;
    return sum;
}

static int tried(int i, int room, int worth, int best)
{
    if (worth > best)
        best = worth;
    if (i == ITEMS || worth + rest_from(i) <= best)
        return best;
    if (items[i].weight <= room)
        best = tried(i + 1, room - items[i].weight, worth + items[i].worth, best);
    return tried(i + 1, room, worth, best);
}

int main(void)
{
    int **best = table(ITEMS + 1, ROOM + 1), worth = pack(best), weight = print_choice(best);
    put_unsigned(worth);
    putchar('\n');
    release(best, ITEMS + 1);
    return tried(0, ROOM, 0, 0) == worth ? weight : 255;
}
