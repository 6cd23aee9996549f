/* Finite automata: one with many choices for strings of a pattern, made into one without choices by sets of states, and both run on words. */
int putchar(int);

enum { STATES = 4, MOST = 1 << STATES, LETTERS = 2 };

struct Automaton {
    unsigned char step[STATES][LETTERS];
    unsigned char accepts;
};

struct Table {
    unsigned char sets[MOST];
    unsigned char next[MOST][LETTERS];
    int count;
};

static void put_text(const char *text)
{
    while (*text)
        putchar(*text++);
}
static void put_unsigned(unsigned n)
{
    if (n >= 10)
        put_unsigned(n / 10);
    putchar('0' + (int)(n % 10));
}

/* Accepts what has an `a` at the third place from its end. */
static const struct Automaton third_from_end = { { { 3, 1 }, { 4, 4 }, { 8, 8 }, { 0, 0 } }, 8 };

static unsigned step(const struct Automaton *a, unsigned set, int letter)
{
    unsigned result = 0;
    int s;
    for (s = 0; s < STATES; s++)
        if (set >> s & 1)
            result |= a->step[s][letter];
    return result;
}

static int number_of(struct Table *table, unsigned set)
{
    int i;
    for (i = 0; i < table->count; i++)
        if (table->sets[i] == set)
            return i;
    table->sets[table->count] = set;
    return table->count++;
}

static void build(const struct Automaton *a, struct Table *table)
{
    int i, letter;
    table->count = 0;
    number_of(table, 1);
    for (i = 0; i < table->count; i++)
        for (letter = 0; letter < LETTERS; letter++) {
            int number = number_of(table, step(a, table->sets[i], letter));
            table->next[i][letter] = number;
        }
}

static int accepts(const struct Automaton *a, const char *word)
{
    unsigned set = 1;
    for (; *word; word++)
        set = step(a, set, *word - 'a');
    return (set & a->accepts) != 0;
}

static int table_accepts(const struct Automaton *a, const struct Table *table, const char *word)
{
    int state = 0;
    for (; *word; word++)
        state = table->next[state][*word - 'a'];
    return (table->sets[state] & a->accepts) != 0;
}

int main(void)
{
    struct Table table;
    char word[6];
    int length, n, i, accepted = 0, wrong = 0;
    build(&third_from_end, &table);
    for (i = 0; i < table.count; i++) {
        put_unsigned(table.next[i][0]);
        putchar(',');
        put_unsigned(table.next[i][1]);
        putchar(table.sets[i] & third_from_end.accepts ? '*' : ' ');
    }
    putchar('\n');
    for (length = 0; length < 6; length++)
        for (n = 0; n < 1 << length; n++) {
            for (i = 0; i < length; i++)
                word[i] = n >> i & 1 ? 'b' : 'a';
            word[length] = 0;
            wrong += accepts(&third_from_end, word) != table_accepts(&third_from_end, &table, word);
            if (accepts(&third_from_end, word)) {
                accepted++;
                if (length == 3) {
                    put_text(word);
                    putchar('\n');
                }
            }
        }
    return wrong ? 255 : accepted;
}
