/* A cache that forgets what was used longest ago: a hash table to find entries, and a doubly linked list in the order of use. */
void *malloc(unsigned);
void free(void *);
int putchar(int);

enum { BUCKETS = 8, ROOM = 6 };

struct Entry {
    int key, value;
    struct Entry *newer, *older, *chain;
};

struct Cache {
    struct Entry *buckets[BUCKETS];
    struct Entry *newest, *oldest;
    int count, hits, misses;
};

static void put_unsigned(unsigned n)
{
    if (n >= 10)
        put_unsigned(n / 10);
    putchar('0' + (int)(n % 10));
}

static void unlink_entry(struct Cache *cache, struct Entry *entry)
{
    if (entry->newer)
        entry->newer->older = entry->older;
    else
        cache->newest = entry->older;
    if (entry->older)
        entry->older->newer = entry->newer;
    else
        cache->oldest = entry->newer;
}

static void link_newest(struct Cache *cache, struct Entry *entry)
{
    entry->newer = 0;
    entry->older = cache->newest;
    if (cache->newest)
        cache->newest->newer = entry;
    else
        cache->oldest = entry;
    cache->newest = entry;
}

static struct Entry **place_of(struct Cache *cache, int key)
{
    struct Entry **place = &cache->buckets[key % BUCKETS];
    while (*place && (*place)->key != key)
        place = &(*place)->chain;
    return place;
}

static void forget_oldest(struct Cache *cache)
{
    struct Entry *entry = cache->oldest, **place = place_of(cache, entry->key);
    *place = entry->chain;
    unlink_entry(cache, entry);
    free(entry);
    cache->count--;
}

static int slow_square(int key)
{
    int i, sum = 0;
    for (i = 0; i < key; i++)
        sum += 2 * i + 1;
    return sum;
}

static int look_up(struct Cache *cache, int key)
{
    struct Entry **place = place_of(cache, key), *entry = *place;
    if (entry) {
        cache->hits++;
        unlink_entry(cache, entry);
    } else {
        cache->misses++;
        if (cache->count == ROOM)
            forget_oldest(cache);
        entry = malloc(sizeof(struct Entry));
        entry->key = key;
        entry->value = slow_square(key);
        place = place_of(cache, key);
        entry->chain = *place;
        *place = entry;
        cache->count++;
    }
    link_newest(cache, entry);
    return entry->value;
}

int main(void)
{
    struct Cache cache = { { 0 }, 0, 0, 0, 0, 0 };
    struct Entry *entry;
    int i, wrong = 0;
    for (i = 0; i < 200; i++) {
        int key = (i * i + i / 7) % 13;
        wrong += look_up(&cache, key) != key * key;
    }
    for (entry = cache.newest; entry; entry = entry->older) {
        put_unsigned(entry->key);
        putchar(entry->older ? ' ' : '\n');
    }
    put_unsigned(cache.hits);
    putchar('/');
    put_unsigned(cache.misses);
    putchar('\n');
    while (cache.count)
        forget_oldest(&cache);
    return wrong;
}
