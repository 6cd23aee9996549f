/* Each string is kept once, so that equal strings are equal pointers; words of a text are counted by their pointers. */
void *malloc(unsigned);
void *memcpy(void *, const void *, unsigned);
void free(void *);
int putchar(int);

enum { BUCKETS = 16 };

struct Name {
    struct Name *next;
    unsigned hash;
    int uses;
    char *text;
};

static struct Name *buckets[BUCKETS];
static int made;

static void put_text(const char *text)
{
    while (*text)
        putchar(*text++);
}
static void put_unsigned(unsigned n)
{
    if (n >= 10)
        put_unsigned(n / 10);
    putchar('0' + (int)(n % 10));
}

static const char *intern(const char *text, int length)
{
    unsigned hash = 2166136261u;
    struct Name *name;
    int i;
    for (i = 0; i < length; i++)
        hash = (hash ^ text[i]) * 16777619u;
    for (name = buckets[hash % BUCKETS]; name; name = name->next) {
        for (i = 0; name->hash == hash && i < length && name->text[i] == text[i]; i++)
            ;
        if (i == length && name->text[i] == 0) {
            name->uses++;
            return name->text;
        }
    }
    name = malloc(sizeof(struct Name));
    name->text = malloc(length + 1);
    memcpy(name->text, text, length);
    name->text[length] = 0;
    name->hash = hash;
    name->uses = 1;
    name->next = buckets[hash % BUCKETS];
    buckets[hash % BUCKETS] = name;
    made++;
    return name->text;
}

static const char *next_word(const char **text)
{
    const char *begin;
    while (**text == ' ')
        ++*text;
    begin = *text;
    while (**text && **text != ' ')
        ++*text;
    return *text > begin ? intern(begin, *text - begin) : 0;
}

int main(void)
{
    const char *text = "row row row your boat gently down the stream merrily merrily merrily merrily life is but a dream";
    const char *row = intern("row", 3), *merrily = intern("merrily", 7), *word;
    int rows = 0, merry = 0, i;
    while ((word = next_word(&text)) != 0) {
        rows += word == row;
        merry += word == merrily;
    }
    put_unsigned(rows);
    putchar(' ');
    put_unsigned(merry);
    putchar('\n');
    for (i = 0; i < BUCKETS; i++)
        while (buckets[i]) {
            struct Name *name = buckets[i];
            if (name->uses > 1) {
                put_text(name->text);
                putchar('\n');
            }
            buckets[i] = name->next;
            free(name->text);
            free(name);
        }
    return made;
}
