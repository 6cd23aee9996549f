/* A text editor's buffer with a gap at the cursor, driven by commands of the input: letters are put in, signs move and erase. */
void *malloc(unsigned);
void *memcpy(void *, const void *, unsigned);
void *memmove(void *, const void *, unsigned);
void free(void *);
int putchar(int);
int getchar(void);

struct Buffer {
    char *text;
    int size, gap, after;
};

static void make(struct Buffer *b)
{
    b->size = 8;
    b->text = malloc(b->size);
    b->gap = 0;
    b->after = b->size;
}

static void widen(struct Buffer *b)
{
    int tail = b->size - b->after;
    char *wider = malloc(b->size * 2);
    memcpy(wider, b->text, b->gap);
    memcpy(wider + b->size * 2 - tail, b->text + b->after, tail);
    free(b->text);
    b->text = wider;
    b->size *= 2;
    b->after = b->size - tail;
}

static void put(struct Buffer *b, char letter)
{
    if (b->gap == b->after)
        widen(b);
    b->text[b->gap++] = letter;
}

static void move_to(struct Buffer *b, int place)
{
    int length = b->size - (b->after - b->gap), distance;
    if (place < 0)
        place = 0;
    if (place > length)
        place = length;
    distance = place - b->gap;
    if (distance < 0) {
        memmove(b->text + b->after + distance, b->text + place, -distance);
    } else {
        memmove(b->text + b->gap, b->text + b->after, distance);
    }
    b->gap += distance;
    b->after += distance;
}

static void print(const struct Buffer *b)
{
    int i;
    for (i = 0; i < b->gap; i++)
        putchar(b->text[i]);
    putchar('|');
    for (i = b->after; i < b->size; i++)
        putchar(b->text[i]);
    putchar('\n');
}

int main(void)
{
    struct Buffer b;
    int c, length;
    make(&b);
    while ((c = getchar()) != -1)
        switch (c) {
        case '<': move_to(&b, b.gap - 1); break;
        case '>': move_to(&b, b.gap + 1); break;
        case '^': move_to(&b, 0); break;
        case '$': move_to(&b, b.size); break;
        case '#':
            if (b.gap > 0)
                b.gap--;
            break;
        case '~':
            if (b.after < b.size)
                b.after++;
            break;
        case '\n': print(&b); break;
        default: put(&b, c);
        }
    length = b.size - (b.after - b.gap);
    free(b.text);
    return length;
}
