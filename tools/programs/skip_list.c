/* A skip list: nodes with towers of links of random heights, for insertion, search and removal; the steps of searches are counted. */
void *malloc(unsigned);
void free(void *);
int putchar(int);

enum { TALLEST = 6 };

struct Node {
    int key, height;
    struct Node **next;
};

static unsigned seed = 99;

static void put_unsigned(unsigned n)
{
    if (n >= 10)
        put_unsigned(n / 10);
    putchar('0' + (int)(n % 10));
}

static struct Node *node(int key, int height)
{
    struct Node *made = malloc(sizeof(struct Node));
    int i;
    made->key = key;
    made->height = height;
    made->next = malloc(height * sizeof(struct Node *));
    for (i = 0; i < height; i++)
        made->next[i] = 0;
    return made;
}

static int random_height(void)
{
    int height = 1;
    do
        seed = seed * 1103515245u + 12345u;
    while (seed >> 30 == 0 && height++ < TALLEST - 1);
    return height;
}

/* The last nodes before a key on each level; the number of steps to them. */
static int find(struct Node *head, int key, struct Node **before)
{
    int level, steps = 0;
    for (level = TALLEST - 1; level >= 0; level--) {
        while (head->next[level] && head->next[level]->key < key) {
            head = head->next[level];
            steps++;
        }
        before[level] = head;
    }
    return steps;
}

static void insert(struct Node *head, int key)
{
    struct Node *before[TALLEST], *made;
    int i;
    find(head, key, before);
    if (before[0]->next[0] && before[0]->next[0]->key == key)
        return;
    made = node(key, random_height());
    for (i = 0; i < made->height; i++) {
        made->next[i] = before[i]->next[i];
        before[i]->next[i] = made;
    }
}

static int erase(struct Node *head, int key)
{
    struct Node *before[TALLEST], *gone;
    int i;
    find(head, key, before);
    gone = before[0]->next[0];
    if (!gone || gone->key != key)
        return 0;
    for (i = 0; i < gone->height; i++)
        before[i]->next[i] = gone->next[i];
    free(gone->next);
    free(gone);
    return 1;
}

int main(void)
{
    struct Node *head = node(0, TALLEST), *before[TALLEST], *at;
    int i, steps = 0, erased = 0, level;
    for (i = 0; i < 150; i++)
        insert(head, i * 67 % 211 + 1);
    for (i = 1; i <= 211; i += 10)
        steps += find(head, i, before);
    for (level = TALLEST - 1; level > 1; level--) {
        for (at = head->next[level]; at; at = at->next[level]) {
            put_unsigned(at->key);
            putchar(' ');
        }
        putchar('\n');
    }
    for (i = 1; i <= 211; i++)
        if (i % 4)
            erased += erase(head, i);
    for (at = head->next[0]; at; at = at->next[0]) {
        put_unsigned(at->key);
        putchar(at->next[0] ? ' ' : '\n');
    }
    while ((at = head->next[0]) != 0)
        erase(head, at->key);
    free(head->next);
    free(head);
    return steps / 22 * 10 + erased % 10;
}
