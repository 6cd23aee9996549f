/* All orders of some letters by Heap's exchanges and by the next one in order, subsets by a Gray code, and choices through a function. */
int putchar(int);

typedef int (*Visitor)(const char *, int);

static int visited, sum;

static void swap(char *a, char *b)
{
    char kept = *a;
    *a = *b;
    *b = kept;
}

static int print(const char *letters, int n)
{
    int i;
    for (i = 0; i < n; i++)
        putchar(letters[i]);
    putchar(++visited % 8 ? ' ' : '\n');
    return 1;
}

static int weigh(const char *letters, int n)
{
    int i;
    for (i = 0; i < n; i++)
        sum += letters[i] * i;
    return letters[0] != 'd';
}

/* Visits all orders until the visitor has enough; whether it did not. */
static int exchange(char *letters, int k, int n, Visitor visit)
{
    int i;
    if (k <= 1)
        return visit(letters, n);
    for (i = 0; i < k; i++) {
        if (!exchange(letters, k - 1, n, visit))
            return 0;
        swap(&letters[k % 2 ? 0 : i], &letters[k - 1]);
    }
    return 1;
}

static int next_order(char *letters, int n)
{
    int i = n - 2, j = n - 1, k;
    while (i >= 0 && letters[i] >= letters[i + 1])
        i--;
    if (i < 0)
        return 0;
    while (letters[j] <= letters[i])
        j--;
    swap(&letters[i], &letters[j]);
    for (j = i + 1, k = n - 1; j < k; j++, k--)
        swap(&letters[j], &letters[k]);
    return 1;
}

int main(void)
{
    char four[] = "abcd", other[] = "abcd", repeated[] = "aabbc";
    int i, k;
    exchange(four, 4, 4, print);
    exchange(other, 4, 4, weigh);
    do
        print(repeated, 5);
    while (next_order(repeated, 5));
    putchar('\n');
    for (i = 0; i < 16; i++) {
        unsigned gray = i ^ i >> 1;
        for (k = 0; k < 4; k++)
            putchar(gray >> k & 1 ? "abcd"[k] : '.');
        putchar(i % 4 == 3 ? '\n' : ' ');
    }
    return (visited + sum) & 255;
}
