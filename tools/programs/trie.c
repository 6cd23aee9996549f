/* A trie of the words of the input, with their numbers; prefixes are listed with the words that go on from them. */
void *calloc(unsigned, unsigned);
void free(void *);
int putchar(int);
int getchar(void);

struct Trie {
    struct Trie *next[26];
    int words;
};

static void put_unsigned(unsigned n)
{
    if (n >= 10)
        put_unsigned(n / 10);
    putchar('0' + (int)(n % 10));
}

static struct Trie *child(struct Trie *trie, int letter)
{
    struct Trie **place = &trie->next[letter - 'a'];
    if (!*place)
        *place = calloc(1, sizeof(struct Trie));
    return *place;
}

static int is_letter(int c)
{
    return c >= 'a' && c <= 'z';
}

static int read_words(struct Trie *root)
{
    struct Trie *at = root;
    int c, count = 0;
    do {
        c = getchar();
        if (is_letter(c)) {
            at = child(at, c);
        } else if (at != root) {
            at->words++;
            count++;
            at = root;
        }
    } while (c != -1);
    return count;
}

static struct Trie *descend(struct Trie *trie, const char *prefix)
{
    while (trie && *prefix)
        trie = trie->next[*prefix++ - 'a'];
    return trie;
}

/* Prints every word below, with what stands before it in the buffer. */
static void list(struct Trie *trie, char *buffer, int length)
{
    int i;
    if (trie->words) {
        for (i = 0; i < length; i++)
            putchar(buffer[i]);
        putchar('*');
        put_unsigned(trie->words);
        putchar('\n');
    }
    for (i = 0; i < 26; i++)
        if (trie->next[i]) {
            buffer[length] = 'a' + i;
            list(trie->next[i], buffer, length + 1);
        }
}

static int release(struct Trie *trie)
{
    int i, count = 1;
    for (i = 0; i < 26; i++)
        if (trie->next[i])
            count += release(trie->next[i]);
    free(trie);
    return count;
}

int main(void)
{
    static const char *const prefixes[] = { "in", "te", "t", "x" };
    struct Trie *root = calloc(1, sizeof(struct Trie)), *found;
    char buffer[40];
    unsigned i, length;
    put_unsigned(read_words(root));
    putchar('\n');
    for (i = 0; i < sizeof prefixes / sizeof prefixes[0]; i++) {
        for (length = 0; prefixes[i][length]; length++)
            buffer[length] = prefixes[i][length];
        found = descend(root, prefixes[i]);
        putchar(found ? '+' : '-');
        putchar('\n');
        if (found)
            list(found, buffer, length);
    }
    return release(root);
}
