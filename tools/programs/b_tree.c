/* A B-tree whose nodes hold up to five keys: insertion splits full nodes on the way down; its shape is printed and checked. */
void *malloc(unsigned);
void free(void *);
int putchar(int);

enum { LEAST = 2, MOST = 2 * LEAST + 1 };

struct Node {
    int count, is_leaf;
    int keys[MOST];
    struct Node *children[MOST + 1];
};

static void put_unsigned(unsigned n)
{
    if (n >= 10)
        put_unsigned(n / 10);
    putchar('0' + (int)(n % 10));
}

static struct Node *node(int is_leaf)
{
    struct Node *made = malloc(sizeof(struct Node));
    made->count = 0;
    made->is_leaf = is_leaf;
    return made;
}

/* Splits the full i-th child; its middle key comes up. */
static void split(struct Node *parent, int i)
{
    struct Node *full = parent->children[i], *right = node(full->is_leaf);
    int k;
    right->count = MOST - LEAST - 1;
    for (k = 0; k < right->count; k++)
        right->keys[k] = full->keys[LEAST + 1 + k];
    if (!full->is_leaf)
        for (k = 0; k <= right->count; k++)
            right->children[k] = full->children[LEAST + 1 + k];
    full->count = LEAST;
    for (k = parent->count; k > i; k--) {
        parent->keys[k] = parent->keys[k - 1];
        parent->children[k + 1] = parent->children[k];
    }
    parent->keys[i] = full->keys[LEAST];
    parent->children[i + 1] = right;
    parent->count++;
}

static void insert_below(struct Node *at, int key)
{
    while (!at->is_leaf) {
        int i = 0;
        while (i < at->count && key > at->keys[i])
            i++;
        if (at->children[i]->count == MOST) {
            split(at, i);
            if (key > at->keys[i])
                i++;
        }
        at = at->children[i];
    }
    {
        int k = at->count++;
        for (; k > 0 && at->keys[k - 1] > key; k--)
            at->keys[k] = at->keys[k - 1];
        at->keys[k] = key;
    }
}

static struct Node *inserted(struct Node *root, int key)
{
    if (root->count == MOST) {
        struct Node *above = node(0);
        above->children[0] = root;
        split(above, 0);
        root = above;
    }
    insert_below(root, key);
    return root;
}

static void print(const struct Node *at)
{
    int i;
    putchar('[');
    for (i = 0; i < at->count; i++) {
        if (!at->is_leaf)
            print(at->children[i]);
        else if (i > 0)
            putchar(' ');
        put_unsigned(at->keys[i]);
    }
    if (!at->is_leaf)
        print(at->children[i]);
    putchar(']');
}

/* The number of keys, where they rise and no node but the root has too few; else a number below zero. */
static int count_rising(const struct Node *at, int *last, int is_root)
{
    int i, total = at->count;
    if (at->count < LEAST && !is_root)
        return -1000;
    for (i = 0; i <= at->count; i++) {
        if (!at->is_leaf)
            total += count_rising(at->children[i], last, 0);
        if (i < at->count) {
            if (at->keys[i] <= *last)
                return -1000;
            *last = at->keys[i];
        }
    }
    return total;
}

static void release(struct Node *at)
{
    int i;
    if (!at->is_leaf)
        for (i = 0; i <= at->count; i++)
            release(at->children[i]);
    free(at);
}

int main(void)
{
    struct Node *root = node(1);
    int i, last = -1, count;
    for (i = 0; i < 90; i++)
        root = inserted(root, i * 41 % 101);
    print(root);
    putchar('\n');
    count = count_rising(root, &last, 1);
    release(root);
    return count < 0 ? 255 : count;
}
