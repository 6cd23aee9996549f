/* String routines of our own, tried on lines of the input: length, comparison, search, reversal, case, and splitting at blanks. */
void *malloc(unsigned);
void *memcpy(void *, const void *, unsigned);
void *memmove(void *, const void *, unsigned);
void free(void *);
int putchar(int);
int getchar(void);

enum { LONGEST = 120, WORDS = 20 };

static void put_text(const char *text)
{
    while (*text)
        putchar(*text++);
}
static void put_unsigned(unsigned n)
{
    if (n >= 10)
        put_unsigned(n / 10);
    putchar('0' + (int)(n % 10));
}

static void put_number(int n)
{
    unsigned size = (unsigned)n;
    if (n < 0) {
        putchar('-');
        size = 0u - size;
    }
    put_unsigned(size);
}

static int length_of(const char *s)
{
    const char *end = s;
    while (*end)
        end++;
    return end - s;
}

static int compare(const char *a, const char *b)
{
    while (*a && *a == *b) {
        a++;
        b++;
    }
    return *a - *b;
}

static char *copy_of(const char *s)
{
    int size = length_of(s) + 1;
    return memcpy(malloc(size), s, size);
}

static char *find(char *s, const char *part)
{
    int size = length_of(part), i;
    for (; *s; s++) {
        for (i = 0; i < size && s[i] == part[i]; i++)
            ;
        if (i == size)
            return s;
    }
    return 0;
}

static void reverse(char *s)
{
    char *end = s + length_of(s);
    while (s < end && s < --end) {
        char kept = *s;
        *s++ = *end;
        *end = kept;
    }
}

static void capitals(char *s)
{
    for (; *s; s++)
        if (*s >= 'a' && *s <= 'z')
            *s -= 'a' - 'A';
}

static void replace_all(char *s, const char *from, char to)
{
    int size = length_of(from);
    while ((s = find(s, from)) != 0) {
        *s++ = to;
        memmove(s, s + size - 1, length_of(s + size - 1) + 1);
    }
}

/* Splits at blanks: puts the beginnings of words into a table and gives their number. */
static int split(char *s, char **words)
{
    int count = 0;
    while (*s && count < WORDS) {
        while (*s == ' ')
            *s++ = 0;
        if (*s)
            words[count++] = s;
        while (*s && *s != ' ')
            s++;
    }
    return count;
}

static int read_line(char *line)
{
    int c, size = 0;
    while ((c = getchar()) != -1 && c != '\n')
        if (size < LONGEST)
            line[size++] = c;
    line[size] = 0;
    return size > 0 || c == '\n';
}

int main(void)
{
    char line[LONGEST + 1], *words[WORDS], *first = copy_of("zzz");
    int i, count, total = 0;
    while (read_line(line)) {
        replace_all(line, "sh", '$');
        count = split(line, words);
        total += count;
        for (i = 0; i < count; i++) {
            if (compare(words[i], first) < 0) {
                free(first);
                first = copy_of(words[i]);
            }
            reverse(words[i]);
            capitals(words[i]);
            put_text(words[i]);
            putchar(i + 1 < count ? '.' : '\n');
        }
        put_number(count);
        putchar('\n');
    }
    put_text(first);
    putchar('\n');
    free(first);
    return total;
}
