/* Recursion that remembers: the longest common part and the distance of two words, ways to change money, and lengths of Collatz walks. */
void *malloc(unsigned);
void free(void *);
int putchar(int);

enum { UNKNOWN = -1, WALKS = 1000 };

struct Table {
    int width;
    int *answers;
};

static const char *first = "intention and execution", *second = "execute an intent";
static int walks[WALKS];

static void put_unsigned(unsigned n)
{
    if (n >= 10)
        put_unsigned(n / 10);
    putchar('0' + (int)(n % 10));
}

static int length_of(const char *text)
{
    return *text ? 1 + length_of(text + 1) : 0;
}

static void make(struct Table *table, int height, int width)
{
    int i;
    table->width = width;
    table->answers = malloc(height * width * sizeof(int));
    for (i = 0; i < height * width; i++)
        table->answers[i] = UNKNOWN;
}

static int greater(int a, int b)
{
    return a > b ? a : b;
}

static int common(struct Table *table, int i, int j)
{
    int *answer = &table->answers[i * table->width + j];
    if (*answer != UNKNOWN)
        return *answer;
    if (!first[i] || !second[j])
        *answer = 0;
    else if (first[i] == second[j])
        *answer = 1 + common(table, i + 1, j + 1);
    else
        *answer = greater(common(table, i + 1, j), common(table, i, j + 1));
    return *answer;
}

static int distance(struct Table *table, int i, int j)
{
    int *answer = &table->answers[i * table->width + j], best;
    if (*answer != UNKNOWN)
        return *answer;
    if (!first[i] || !second[j]) {
        best = length_of(first + i) + length_of(second + j);
    } else if (first[i] == second[j]) {
        best = distance(table, i + 1, j + 1);
    } else {
        best = -greater(-distance(table, i + 1, j), -distance(table, i, j + 1));
        best = 1 - greater(-best, -distance(table, i + 1, j + 1));
    }
    *answer = best;
    return best;
}

static int ways(struct Table *table, const int *coins, int coin, int amount)
{
    int *answer;
    if (amount < 0)
        return 0;
    if (amount == 0)
        return 1;
    if (coins[coin] == 0)
        return 0;
    answer = &table->answers[coin * table->width + amount];
    if (*answer == UNKNOWN)
        *answer = ways(table, coins, coin + 1, amount) + ways(table, coins, coin, amount - coins[coin]);
    return *answer;
}

static int walk(unsigned n)
{
    int length;
    if (n == 1)
        return 0;
    if (n < WALKS && walks[n])
        return walks[n];
    length = 1 + walk(n % 2 ? 3 * n + 1 : n / 2);
    if (n < WALKS)
        walks[n] = length;
    return length;
}

int main(void)
{
    static const int coins[] = { 50, 25, 10, 5, 1, 0 };
    int height = length_of(first) + 1, width = length_of(second) + 1, longest = 1, i;
    struct Table table;
    make(&table, height, width);
    put_unsigned(common(&table, 0, 0));
    putchar('\n');
    free(table.answers);
    make(&table, height, width);
    put_unsigned(distance(&table, 0, 0));
    putchar('\n');
    free(table.answers);
    make(&table, 6, 101);
    put_unsigned(ways(&table, coins, 0, 100));
    putchar('\n');
    free(table.answers);
    for (i = 1; i < 300; i++)
        if (walk(i) > walk(longest))
            longest = i;
    put_unsigned(longest);
    putchar('\n');
    return walk(longest);
}
