/* Counts lines, words and bytes of the input, and prints the words by how often they stand there. */
void *malloc(unsigned);
void *memcpy(void *, const void *, unsigned);
int memcmp(const void *, const void *, unsigned);
void free(void *);
int putchar(int);
int getchar(void);

enum { LONGEST = 20 };

struct Word {
    char *text;
    int length, count;
    struct Word *next;
};

static void put_unsigned(unsigned n)
{
    if (n >= 10)
        put_unsigned(n / 10);
    putchar('0' + (int)(n % 10));
}

static void count_word(struct Word **list, const char *text, int length)
{
    struct Word *word;
    for (word = *list; word; word = word->next)
        if (word->length == length && memcmp(word->text, text, length) == 0) {
            word->count++;
            return;
        }
    word = malloc(sizeof(struct Word));
    word->text = malloc(length);
    memcpy(word->text, text, length);
    word->length = length;
    word->count = 1;
    word->next = *list;
    *list = word;
}

static int is_before(const struct Word *a, const struct Word *b)
{
    int shorter = a->length < b->length ? a->length : b->length, order;
    if (a->count != b->count)
        return a->count > b->count;
    order = memcmp(a->text, b->text, shorter);
    return order ? order < 0 : a->length < b->length;
}

static struct Word *sorted(struct Word *list)
{
    struct Word *done = 0, **place, *word;
    while ((word = list) != 0) {
        list = word->next;
        for (place = &done; *place && is_before(*place, word); place = &(*place)->next)
            ;
        word->next = *place;
        *place = word;
    }
    return done;
}

int main(void)
{
    struct Word *list = 0, *word;
    char text[LONGEST];
    int c, length = 0, lines = 0, words = 0, bytes = 0, kinds = 0, i;
    while ((c = getchar()) != -1) {
        bytes++;
        lines += c == '\n';
        if (c >= 'A' && c <= 'Z')
            c += 'a' - 'A';
        if (c >= 'a' && c <= 'z') {
            if (length < LONGEST)
                text[length++] = c;
        } else if (length) {
            count_word(&list, text, length);
            words++;
            length = 0;
        }
    }
    put_unsigned(lines);
    putchar(' ');
    put_unsigned(words);
    putchar(' ');
    put_unsigned(bytes);
    putchar('\n');
    list = sorted(list);
    while ((word = list) != 0) {
        if (kinds++ < 8) {
            put_unsigned(word->count);
            putchar(' ');
            for (i = 0; i < word->length; i++)
                putchar(word->text[i]);
            putchar('\n');
        }
        list = word->next;
        free(word->text);
        free(word);
    }
    return kinds;
}
