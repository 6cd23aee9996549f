/* Three generators of pseudo-random numbers behind one face, with a histogram, a shuffle and an estimate of pi by points in a square. */
int putchar(int);

struct Generator {
    unsigned state[4];
    unsigned (*next)(struct Generator *);
};

static void put_unsigned(unsigned n)
{
    if (n >= 10)
        put_unsigned(n / 10);
    putchar('0' + (int)(n % 10));
}

static unsigned congruential(struct Generator *g)
{
    g->state[0] = g->state[0] * 1664525u + 1013904223u;
    return g->state[0] >> 16 | g->state[0] << 16;
}

static unsigned shifting(struct Generator *g)
{
    unsigned t = g->state[3], s = g->state[0];
    g->state[3] = g->state[2];
    g->state[2] = g->state[1];
    g->state[1] = s;
    t ^= t << 11;
    t ^= t >> 8;
    g->state[0] = t ^ s ^ s >> 19;
    return g->state[0];
}

static unsigned multiplying(struct Generator *g)
{
    g->state[0] = 36969 * (g->state[0] & 65535) + (g->state[0] >> 16);
    g->state[1] = 18000 * (g->state[1] & 65535) + (g->state[1] >> 16);
    return (g->state[0] << 16) + g->state[1];
}

static struct Generator generators[] = {
    { { 1 }, congruential },
    { { 123456789, 362436069, 521288629, 88675123 }, shifting },
    { { 521288629, 362436069 }, multiplying },
};

static unsigned below(struct Generator *g, unsigned n)
{
    return (g->next(g) >> 8) % n;
}

static void histogram(struct Generator *g)
{
    int counts[6] = { 0 }, i;
    for (i = 0; i < 120; i++)
        counts[below(g, 6)]++;
    for (i = 0; i < 6; i++) {
        int k;
        putchar('1' + i);
        putchar(' ');
        for (k = 0; k < counts[i]; k++)
            putchar('#');
        putchar('\n');
    }
}

static void shuffle(struct Generator *g)
{
    char letters[] = "abcdefghijklmnop";
    int i;
    for (i = sizeof letters - 2; i > 0; i--) {
        int k = below(g, i + 1);
        char kept = letters[i];
        letters[i] = letters[k];
        letters[k] = kept;
    }
    for (i = 0; letters[i]; i++)
        putchar(letters[i]);
    putchar('\n');
}

static unsigned pi_of(struct Generator *g)
{
    int i, inside = 0;
    for (i = 0; i < 1000; i++) {
        unsigned x = below(g, 1000), y = below(g, 1000);
        inside += x * x + y * y < 1000000;
    }
    return 4 * inside;
}

int main(void)
{
    unsigned i, sum = 0;
    for (i = 0; i < sizeof generators / sizeof generators[0]; i++) {
        unsigned pi;
        histogram(&generators[i]);
        shuffle(&generators[i]);
        pi = pi_of(&generators[i]);
        put_unsigned(pi);
        putchar('\n');
        sum += pi;
    }
    return sum / 100;
}
