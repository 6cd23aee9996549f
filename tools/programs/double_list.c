/* A doubly linked list around a sentinel: both ends, moves to the front, and a walk in each direction. */
void *malloc(unsigned);
void free(void *);
int putchar(int);

struct Link {
    struct Link *before, *after;
    char letter;
};

static void link_after(struct Link *place, struct Link *item)
{
    item->before = place;
    item->after = place->after;
    place->after->before = item;
    place->after = item;
}

static void unlink_item(struct Link *item)
{
    item->before->after = item->after;
    item->after->before = item->before;
}

static struct Link *append(struct Link *ring, char letter)
{
    struct Link *item = malloc(sizeof *item);
    item->letter = letter;
    link_after(ring->before, item);
    return item;
}

static struct Link *found(struct Link *ring, char letter)
{
    struct Link *item;
    for (item = ring->after; item != ring; item = item->after)
        if (item->letter == letter)
            return item;
    return 0;
}

static void print(struct Link *ring, int backwards)
{
    struct Link *item = backwards ? ring->before : ring->after;
    while (item != ring) {
        putchar(item->letter);
        item = backwards ? item->before : item->after;
    }
    putchar('\n');
}

/* Moves the letter to the front, as a table of recent letters does; a new one is made. Gives the distance it was found at. */
static int touch(struct Link *ring, char letter)
{
    struct Link *item = found(ring, letter), *walk;
    int distance = 0;
    if (!item)
        item = append(ring, letter);
    for (walk = ring->after; walk != item; walk = walk->after)
        distance++;
    unlink_item(item);
    link_after(ring, item);
    return distance;
}

int main(void)
{
    struct Link ring;
    const char *text = "the quick brown fox jumps over the lazy dog";
    int total = 0;
    ring.before = ring.after = &ring;
    ring.letter = 0;
    for (; *text; text++)
        if (*text != ' ')
            total += touch(&ring, *text);
    print(&ring, 0);
    print(&ring, 1);
    while (ring.after != &ring) {
        struct Link *item = ring.after;
        unlink_item(item);
        free(item);
    }
    return total & 255;
}
