/* Coding by references back into a window: a pair of distance and length, or a byte as it is; chains of equal prefixes find the longest match. */
void *malloc(unsigned);
void free(void *);
int memcmp(const void *, const void *, unsigned);
int putchar(int);

enum { LEAST = 3, LONGEST = 18, WINDOW = 256, HASHES = 64 };

struct Coder {
    const char *text;
    int length;
    int newest[HASHES];
    int *older;
};

static void put_unsigned(unsigned n)
{
    if (n >= 10)
        put_unsigned(n / 10);
    putchar('0' + (int)(n % 10));
}

static int hash(const char *s)
{
    return (s[0] * 5 + s[1] * 3 + s[2]) % HASHES;
}

static int match(const char *a, const char *b, int most)
{
    int length = 0;
    while (length < most && a[length] == b[length])
        length++;
    return length;
}

static void note(struct Coder *coder, int at)
{
    if (at + LEAST <= coder->length) {
        int *newest = &coder->newest[hash(coder->text + at)];
        coder->older[at] = *newest;
        *newest = at;
    }
}

/* The longest match before a place: its length, and where it begins. */
static int longest(struct Coder *coder, int at, int *from)
{
    int best = 0, most = coder->length - at, candidate;
    if (most < LEAST)
        return 0;
    if (most > LONGEST)
        most = LONGEST;
    for (candidate = coder->newest[hash(coder->text + at)]; candidate >= 0 && at - candidate < WINDOW; candidate = coder->older[candidate]) {
        int length = match(coder->text + candidate, coder->text + at, most);
        if (length > best) {
            best = length;
            *from = candidate;
        }
    }
    return best;
}

static int coded(struct Coder *coder, unsigned char *out)
{
    int at = 0, size = 0, from = 0, i;
    for (i = 0; i < HASHES; i++)
        coder->newest[i] = -1;
    while (at < coder->length) {
        int length = longest(coder, at, &from);
        if (length >= LEAST) {
            out[size++] = 1;
            out[size++] = at - from;
            out[size++] = length;
        } else {
            length = 1;
            out[size++] = 0;
            out[size++] = coder->text[at];
        }
        while (length-- > 0)
            note(coder, at++);
    }
    return size;
}

static int decoded(const unsigned char *code, int size, char *text)
{
    const unsigned char *end = code + size;
    char *begin = text;
    while (code < end) {
        if (*code++) {
            char *from = text - *code++;
            int length = *code++;
            while (length-- > 0)
                *text++ = *from++;
        } else {
            *text++ = *code++;
        }
    }
    return text - begin;
}

int main(void)
{
    static const char text[] = "How much wood would a woodchuck chuck if a woodchuck could chuck wood? A woodchuck would chuck as much wood as a "
        "woodchuck could chuck if a woodchuck could chuck wood. abababababababababababababab";
    struct Coder coder;
    unsigned char *out = malloc(2 * sizeof text);
    char *again = malloc(sizeof text);
    int size, same;
    coder.text = text;
    coder.length = sizeof text - 1;
    coder.older = malloc(coder.length * sizeof(int));
    size = coded(&coder, out);
    same = decoded(out, size, again) == coder.length && memcmp(text, again, coder.length) == 0;
    put_unsigned(coder.length);
    putchar(' ');
    put_unsigned(size);
    putchar('\n');
    free(out);
    free(again);
    free(coder.older);
    return !same;
}
