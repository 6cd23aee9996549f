/* An allocator over an array of words: a list of free runs in order, first fit, and neighbours that are joined again. */
int putchar(int);

enum { WORDS = 256, NONE = -1, SIZE = 0, NEXT = 1 };

static int words[WORDS];
static int first_free;

static void put_unsigned(unsigned n)
{
    if (n >= 10)
        put_unsigned(n / 10);
    putchar('0' + (int)(n % 10));
}

static void begin(void)
{
    first_free = 0;
    words[SIZE] = WORDS;
    words[NEXT] = NONE;
}

/* A run of n words behind the word that holds its size; its place, or NONE. */
static int allocate(int n)
{
    int *link = &first_free, run;
    n = n < 1 ? 2 : n + 1;
    for (run = *link; run != NONE; run = *link) {
        int rest = words[run + SIZE] - n;
        if (rest >= 2) {
            words[run + SIZE] = rest;
            words[run + rest + SIZE] = n;
            return run + rest + 1;
        }
        if (rest >= 0) {
            *link = words[run + NEXT];
            return run + 1;
        }
        link = &words[run + NEXT];
    }
    return NONE;
}

static void join_next(int run)
{
    int next = words[run + NEXT];
    if (next != NONE && run + words[run + SIZE] == next) {
        words[run + SIZE] += words[next + SIZE];
        words[run + NEXT] = words[next + NEXT];
    }
}

static void give_back(int place)
{
    int run = place - 1, before = NONE, after = first_free;
    while (after != NONE && after < run) {
        before = after;
        after = words[after + NEXT];
    }
    words[run + NEXT] = after;
    join_next(run);
    if (before == NONE) {
        first_free = run;
    } else {
        words[before + NEXT] = run;
        join_next(before);
    }
}

static int print_free(void)
{
    int run, count = 0;
    for (run = first_free; run != NONE; run = words[run + NEXT]) {
        put_unsigned(run);
        putchar('+');
        put_unsigned(words[run + SIZE]);
        putchar(' ');
        count++;
    }
    putchar('\n');
    return count;
}

int main(void)
{
    int places[20], i, missed = 0, runs;
    begin();
    for (i = 0; i < 20; i++) {
        places[i] = allocate(i * 7 % 19 + 1);
        missed += places[i] == NONE;
    }
    print_free();
    for (i = 1; i < 20; i += 2)
        if (places[i] != NONE)
            give_back(places[i]);
    print_free();
    for (i = 1; i < 20; i += 4)
        places[i] = allocate(5);
    print_free();
    for (i = 3; i < 20; i += 4)
        places[i] = NONE;
    for (i = 0; i < 20; i++)
        if (places[i] != NONE)
            give_back(places[i]);
    runs = print_free();
    return missed * 16 + runs;
}
