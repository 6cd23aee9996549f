/* Huffman codes of a text: a tree by a list in order of weight, the codes as strings of bits, coding and decoding. */
void *malloc(unsigned);
void free(void *);
int putchar(int);

struct Node {
    int weight, letter;
    struct Node *zero, *one, *next;
};

struct Code {
    unsigned bits;
    int length;
};

static struct Code codes[128];
static unsigned char out[200];

static void put_unsigned(unsigned n)
{
    if (n >= 10)
        put_unsigned(n / 10);
    putchar('0' + (int)(n % 10));
}

static void insert(struct Node **list, struct Node *node)
{
    while (*list && ((*list)->weight < node->weight || (*list)->weight == node->weight && (*list)->letter < node->letter))
        list = &(*list)->next;
    node->next = *list;
    *list = node;
}

static struct Node *node_of(int weight, int letter, struct Node *zero, struct Node *one)
{
    struct Node *node = malloc(sizeof(struct Node));
    node->weight = weight;
    node->letter = letter;
    node->zero = zero;
    node->one = one;
    node->next = 0;
    return node;
}

static struct Node *tree_of(const char *text)
{
    int counts[128] = { 0 }, i, inner = 128;
    struct Node *list = 0;
    for (; *text; text++)
        counts[(int)*text]++;
    for (i = 0; i < 128; i++)
        if (counts[i])
            insert(&list, node_of(counts[i], i, 0, 0));
    while (list->next) {
        struct Node *zero = list, *one = list->next;
        list = one->next;
        insert(&list, node_of(zero->weight + one->weight, inner++, zero, one));
    }
    return list;
}

static void assign(const struct Node *tree, unsigned bits, int length)
{
    if (tree->zero) {
        assign(tree->zero, bits << 1, length + 1);
        assign(tree->one, bits << 1 | 1, length + 1);
    } else {
        codes[tree->letter].bits = bits;
        codes[tree->letter].length = length;
    }
}

static int encode(const char *text)
{
    int at = 0, i;
    for (; *text; text++) {
        const struct Code *code = &codes[(int)*text];
        for (i = code->length - 1; i >= 0; i--) {
            if (code->bits >> i & 1)
                out[at / 8] |= 128 >> at % 8;
            at++;
        }
    }
    return at;
}

static void decode(const struct Node *tree, int bits)
{
    const struct Node *node = tree;
    int at;
    for (at = 0; at < bits; at++) {
        node = out[at / 8] >> (7 - at % 8) & 1 ? node->one : node->zero;
        if (!node->zero) {
            putchar(node->letter);
            node = tree;
        }
    }
}

static void release(struct Node *tree)
{
    if (tree) {
        release(tree->zero);
        release(tree->one);
        free(tree);
    }
}

int main(void)
{
    const char *text = "peter piper picked a peck of pickled peppers; a peck of pickled peppers peter piper picked\n";
    struct Node *tree = tree_of(text);
    int bits, i;
    assign(tree, 0, 0);
    for (i = ' '; i < 128; i++)
        if (codes[i].length) {
            int k;
            putchar(i);
            putchar(' ');
            for (k = codes[i].length - 1; k >= 0; k--)
                putchar('0' + (int)(codes[i].bits >> k & 1));
            putchar('\n');
        }
    bits = encode(text);
    decode(tree, bits);
    put_unsigned(bits);
    putchar('\n');
    release(tree);
    return bits / 8;
}
