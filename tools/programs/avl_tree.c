/* A balanced search tree (Adelson-Velsky and Landis): the heights of siblings differ by one at most. */
void *malloc(unsigned);
void free(void *);
int putchar(int);

struct Avl {
    int key, height;
    struct Avl *child[2];
};

static void put_unsigned(unsigned n)
{
    if (n >= 10)
        put_unsigned(n / 10);
    putchar('0' + (int)(n % 10));
}

static int height(const struct Avl *tree)
{
    return tree ? tree->height : 0;
}

static void measure(struct Avl *tree)
{
    int a = height(tree->child[0]), b = height(tree->child[1]);
    tree->height = 1 + (a > b ? a : b);
}

/* Turns the tree so that its child on one side comes on top. */
static struct Avl *turned(struct Avl *tree, int side)
{
    struct Avl *top = tree->child[side];
    tree->child[side] = top->child[!side];
    top->child[!side] = tree;
    measure(tree);
    measure(top);
    return top;
}

static struct Avl *balanced(struct Avl *tree)
{
    int side, lean = height(tree->child[1]) - height(tree->child[0]);
    struct Avl *heavy;
    measure(tree);
    if (lean >= -1 && lean <= 1)
        return tree;
    side = lean > 0;
    heavy = tree->child[side];
    if (height(heavy->child[!side]) > height(heavy->child[side]))
        tree->child[side] = turned(heavy, !side);
    return turned(tree, side);
}

static struct Avl *inserted(struct Avl *tree, int key)
{
    if (!tree) {
        tree = malloc(sizeof(struct Avl));
        tree->key = key;
        tree->height = 1;
        tree->child[0] = tree->child[1] = 0;
    } else if (key != tree->key) {
        int side = key > tree->key;
        tree->child[side] = inserted(tree->child[side], key);
    }
    return balanced(tree);
}

static int is_balanced(const struct Avl *tree, int least, int greatest)
{
    int lean;
    if (!tree)
        return 1;
    lean = height(tree->child[0]) - height(tree->child[1]);
    return lean >= -1 && lean <= 1 && tree->key >= least && tree->key <= greatest
        && is_balanced(tree->child[0], least, tree->key - 1) && is_balanced(tree->child[1], tree->key + 1, greatest);
}

static void print(const struct Avl *tree)
{
    if (!tree)
        return;
    putchar('(');
    print(tree->child[0]);
    put_unsigned(tree->key);
    print(tree->child[1]);
    putchar(')');
}

static void release(struct Avl *tree)
{
    if (tree) {
        release(tree->child[0]);
        release(tree->child[1]);
        free(tree);
    }
}

int main(void)
{
    struct Avl *tree = 0;
    int i, deep, good = 1;
    for (i = 0; i < 50; i++) {
        tree = inserted(tree, i < 25 ? i : i * 31 % 200);
        good = good && is_balanced(tree, 0, 1000);
    }
    print(tree);
    putchar('\n');
    deep = height(tree);
    release(tree);
    return good ? deep : 255;
}
