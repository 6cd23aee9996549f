/* Six ways to sort an array of numbers, called through a table; each result is checked against the first. */
void *malloc(unsigned);
void *memcpy(void *, const void *, unsigned);
int memcmp(const void *, const void *, unsigned);
void free(void *);
int putchar(int);

enum { LENGTH = 64 };

typedef void (*Sort)(int *, int);

struct Method {
    const char *name;
    Sort sort;
};

static void put_text(const char *text)
{
    while (*text)
        putchar(*text++);
}

static void swap(int *a, int *b)
{
    int kept = *a;
    *a = *b;
    *b = kept;
}

static void insertion(int *a, int n)
{
    int i, j;
    for (i = 1; i < n; i++)
        for (j = i; j > 0 && a[j] < a[j - 1]; j--)
            swap(&a[j], &a[j - 1]);
}

static void selection(int *a, int n)
{
    int i, j;
    for (i = 0; i < n; i++) {
        int least = i;
        for (j = i + 1; j < n; j++)
            if (a[j] < a[least])
                least = j;
        swap(&a[i], &a[least]);
    }
}

static void shell(int *a, int n)
{
    int gap, i, j;
    for (gap = n / 2; gap > 0; gap /= 2)
        for (i = gap; i < n; i++)
            for (j = i; j >= gap && a[j] < a[j - gap]; j -= gap)
                swap(&a[j], &a[j - gap]);
}

static void quick(int *a, int n)
{
    int i, last = 0;
    if (n <= 1)
        return;
    swap(&a[0], &a[n / 2]);
    for (i = 1; i < n; i++)
        if (a[i] < a[0])
            swap(&a[++last], &a[i]);
    swap(&a[0], &a[last]);
    quick(a, last);
    quick(a + last + 1, n - last - 1);
}

static void merge(int *a, int n)
{
    int *half, i = 0, j = n / 2, k = 0;
    if (n <= 1)
        return;
    merge(a, n / 2);
    merge(a + n / 2, n - n / 2);
    half = malloc(n / 2 * sizeof(int));
    memcpy(half, a, n / 2 * sizeof(int));
    while (i < n / 2)
        a[k++] = j < n && a[j] < half[i] ? a[j++] : half[i++];
    free(half);
}

static void sift(int *a, int at, int n)
{
    int child;
    while ((child = 2 * at + 1) < n) {
        if (child + 1 < n && a[child + 1] > a[child])
            child++;
        if (a[child] <= a[at])
            return;
        swap(&a[child], &a[at]);
        at = child;
    }
}

static void heap(int *a, int n)
{
    int i;
    for (i = n / 2; i-- > 0;)
        sift(a, i, n);
    while (n-- > 1) {
        swap(&a[0], &a[n]);
        sift(a, 0, n);
    }
}

static struct Method methods[] = {
    { "insertion", insertion }, { "selection", selection }, { "shell", shell }, { "quick", quick }, { "merge", merge }, { "heap", heap },
};

int main(void)
{
    int given[LENGTH], first[LENGTH], other[LENGTH], i, wrong = 0;
    unsigned seed = 12345, m;
    for (i = 0; i < LENGTH; i++) {
        seed = seed * 1103515245u + 12345u;
        given[i] = (int)(seed >> 16 & 1023) - 512;
    }
    memcpy(first, given, sizeof first);
    insertion(first, LENGTH);
    for (m = 0; m < sizeof methods / sizeof methods[0]; m++) {
        memcpy(other, given, sizeof other);
        methods[m].sort(other, LENGTH);
        put_text(methods[m].name);
        if (memcmp(first, other, sizeof first) == 0) {
            put_text(": sorted\n");
        } else {
            put_text(": WRONG\n");
            wrong++;
        }
    }
    for (i = 1; i < LENGTH; i++)
        wrong += first[i - 1] > first[i];
    return wrong;
}
