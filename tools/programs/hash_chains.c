/* A hash table with chains that grows: counts letters pairs of a text and prints the most frequent ones. */
void *malloc(unsigned);
void *calloc(unsigned, unsigned);
void free(void *);
int putchar(int);
int getchar(void);

struct Entry {
    char pair[2];
    int count;
    struct Entry *next;
};

struct Table {
    struct Entry **chains;
    unsigned length, used;
};

static void put_unsigned(unsigned n)
{
    if (n >= 10)
        put_unsigned(n / 10);
    putchar('0' + (int)(n % 10));
}

static unsigned hash(const char *pair)
{
    return (pair[0] * 31u + pair[1]) * 2654435761u >> 7;
}

static void make(struct Table *table, unsigned length)
{
    table->chains = calloc(length, sizeof(struct Entry *));
    table->length = length;
    table->used = 0;
}

static void grow(struct Table *table)
{
    struct Table wider;
    unsigned i;
    make(&wider, table->length * 2);
    for (i = 0; i < table->length; i++) {
        struct Entry *entry = table->chains[i];
        while (entry) {
            struct Entry *next = entry->next;
            struct Entry **chain = &wider.chains[hash(entry->pair) % wider.length];
            entry->next = *chain;
            *chain = entry;
            entry = next;
        }
    }
    wider.used = table->used;
    free(table->chains);
    *table = wider;
}

static struct Entry *entry_of(struct Table *table, char a, char b)
{
    char pair[2];
    struct Entry *entry, **chain;
    pair[0] = a;
    pair[1] = b;
    for (entry = table->chains[hash(pair) % table->length]; entry; entry = entry->next)
        if (entry->pair[0] == a && entry->pair[1] == b)
            return entry;
    if (table->used++ >= table->length)
        grow(table);
    entry = malloc(sizeof(struct Entry));
    entry->pair[0] = a;
    entry->pair[1] = b;
    entry->count = 0;
    chain = &table->chains[hash(pair) % table->length];
    entry->next = *chain;
    *chain = entry;
    return entry;
}

/* The entry with the greatest count, and of several the first by its letters. */
static struct Entry *most_frequent(struct Table *table)
{
    struct Entry *best = 0, *entry;
    unsigned i;
    for (i = 0; i < table->length; i++)
        for (entry = table->chains[i]; entry; entry = entry->next)
            if (!best || entry->count > best->count || entry->count == best->count
                && entry->pair[0] * 256 + entry->pair[1] < best->pair[0] * 256 + best->pair[1])
                best = entry;
    return best;
}

static int is_letter(int c)
{
    return c >= 'a' && c <= 'z';
}

static void release(struct Table *table)
{
    unsigned i;
    for (i = 0; i < table->length; i++) {
        struct Entry *entry = table->chains[i];
        while (entry) {
            struct Entry *next = entry->next;
            free(entry);
            entry = next;
        }
    }
    free(table->chains);
}

int main(void)
{
    struct Table table;
    int before = ' ', c, i, kinds;
    make(&table, 4);
    while ((c = getchar()) != -1) {
        if (is_letter(before) && is_letter(c))
            entry_of(&table, before, c)->count++;
        before = c;
    }
    kinds = table.used;
    for (i = 0; i < 5; i++) {
        struct Entry *best = most_frequent(&table);
        if (!best)
            break;
        putchar(best->pair[0]);
        putchar(best->pair[1]);
        putchar(' ');
        put_unsigned(best->count);
        putchar('\n');
        best->count = 0;
    }
    release(&table);
    return kinds;
}
