/* A hash table with open addressing: linear probing, marks where something was removed, and growth at three quarters. */
void *malloc(unsigned);
void free(void *);
int putchar(int);

enum State { FREE, USED, REMOVED };

struct Slot {
    enum State state;
    unsigned key;
    int value;
};

struct Map {
    struct Slot *slots;
    unsigned length, used, marked;
};

static void put_unsigned(unsigned n)
{
    if (n >= 10)
        put_unsigned(n / 10);
    putchar('0' + (int)(n % 10));
}

static unsigned mixed(unsigned key)
{
    key ^= key >> 16;
    key *= 0x7feb352du;
    key ^= key >> 15;
    key *= 0x846ca68bu;
    return key ^ key >> 16;
}

static void make(struct Map *map, unsigned length)
{
    unsigned i;
    map->slots = malloc(length * sizeof(struct Slot));
    map->length = length;
    map->used = map->marked = 0;
    for (i = 0; i < length; i++)
        map->slots[i].state = FREE;
}

/* The slot that holds the key, or the one where it belongs. */
static struct Slot *slot_of(struct Map *map, unsigned key)
{
    struct Slot *kept = 0;
    unsigned at = mixed(key) & (map->length - 1);
    for (;;) {
        struct Slot *slot = &map->slots[at];
        if (slot->state == FREE)
            return kept ? kept : slot;
        if (slot->state == REMOVED) {
            if (!kept)
                kept = slot;
        } else if (slot->key == key) {
            return slot;
        }
        at = (at + 1) & (map->length - 1);
    }
}

static void put(struct Map *map, unsigned key, int value);

static void grow(struct Map *map)
{
    struct Map wider;
    unsigned i;
    make(&wider, map->length * 2);
    for (i = 0; i < map->length; i++)
        if (map->slots[i].state == USED)
            put(&wider, map->slots[i].key, map->slots[i].value);
    free(map->slots);
    *map = wider;
}

static void put(struct Map *map, unsigned key, int value)
{
    struct Slot *slot;
    if ((map->used + map->marked) * 4 >= map->length * 3)
        grow(map);
    slot = slot_of(map, key);
    if (slot->state != USED) {
        map->used++;
        map->marked -= slot->state == REMOVED;
    }
    slot->state = USED;
    slot->key = key;
    slot->value = value;
}

static int take(struct Map *map, unsigned key)
{
    struct Slot *slot = slot_of(map, key);
    if (slot->state != USED)
        return -1;
    slot->state = REMOVED;
    map->used--;
    map->marked++;
    return slot->value;
}

int main(void)
{
    struct Map map;
    unsigned i, sum = 0;
    int missing = 0;
    make(&map, 8);
    for (i = 0; i < 300; i++)
        put(&map, i * i, i);
    for (i = 0; i < 600; i += 2) {
        int value = take(&map, i * i);
        if (value < 0)
            missing++;
        else
            sum += value;
    }
    for (i = 0; i < 300; i++)
        put(&map, i, 1);
    put_unsigned(map.used);
    putchar(' ');
    put_unsigned(map.length);
    putchar(' ');
    put_unsigned(sum);
    putchar('\n');
    free(map.slots);
    return missing;
}
