/* Sets of small numbers as arrays of bits: union, intersection, complement, counting, and the reach of a relation (Warshall). */
int putchar(int);

enum { SIZE = 40, WORDS = (SIZE + 31) / 32 };

struct Set {
    unsigned words[WORDS];
};

static void put_unsigned(unsigned n)
{
    if (n >= 10)
        put_unsigned(n / 10);
    putchar('0' + (int)(n % 10));
}

static void clear(struct Set *set)
{
    int i;
    for (i = 0; i < WORDS; i++)
        set->words[i] = 0;
}

static void include(struct Set *set, int n)
{
    set->words[n / 32] |= 1u << n % 32;
}

static int has(const struct Set *set, int n)
{
    return set->words[n / 32] >> n % 32 & 1;
}

static void unite(struct Set *set, const struct Set *other)
{
    int i;
    for (i = 0; i < WORDS; i++)
        set->words[i] |= other->words[i];
}

static void intersect(struct Set *set, const struct Set *other)
{
    int i;
    for (i = 0; i < WORDS; i++)
        set->words[i] &= other->words[i];
}

static void complement(struct Set *set)
{
    int i;
    for (i = 0; i < WORDS; i++)
        set->words[i] = ~set->words[i];
    set->words[WORDS - 1] &= (1u << SIZE % 32) - 1;
}

static int count(const struct Set *set)
{
    int i, total = 0;
    for (i = 0; i < WORDS; i++) {
        unsigned word = set->words[i];
        word = (word & 0x55555555) + (word >> 1 & 0x55555555);
        word = (word & 0x33333333) + (word >> 2 & 0x33333333);
        word = (word & 0x0f0f0f0f) + (word >> 4 & 0x0f0f0f0f);
        total += word * 0x01010101u >> 24;
    }
    return total;
}

static void print(const struct Set *set)
{
    int n, begun = 0;
    putchar('{');
    for (n = 0; n < SIZE; n++)
        if (has(set, n)) {
            if (begun++)
                putchar(',');
            put_unsigned(n);
        }
    putchar('}');
    putchar('\n');
}

static struct Set reach[SIZE];

int main(void)
{
    struct Set threes, fives, both;
    int n, k, total = 0;
    clear(&threes);
    clear(&fives);
    for (n = 0; n < SIZE; n++) {
        if (n % 3 == 0)
            include(&threes, n);
        if (n % 5 == 0)
            include(&fives, n);
    }
    both = threes;
    intersect(&both, &fives);
    print(&both);
    unite(&threes, &fives);
    complement(&threes);
    print(&threes);
    for (n = 0; n < SIZE; n++)
        include(&reach[n], n * n % SIZE);
    for (k = 0; k < SIZE; k++)
        for (n = 0; n < SIZE; n++)
            if (has(&reach[n], k))
                unite(&reach[n], &reach[k]);
    print(&reach[7]);
    for (n = 0; n < SIZE; n++)
        total += count(&reach[n]);
    put_unsigned(total);
    putchar('\n');
    return count(&threes);
}
