/* A left-leaning red-black tree (Sedgewick): no red link hangs on a red one, and all ways down pass as many black ones. */
void *malloc(unsigned);
void free(void *);
int putchar(int);

enum Colour { RED, BLACK };

struct Tree {
    int key;
    enum Colour colour;
    struct Tree *left, *right;
};

static void put_unsigned(unsigned n)
{
    if (n >= 10)
        put_unsigned(n / 10);
    putchar('0' + (int)(n % 10));
}

static int is_red(struct Tree *tree)
{
    return tree && tree->colour == RED;
}

static struct Tree *turned_left(struct Tree *tree)
{
    struct Tree *top = tree->right;
    tree->right = top->left;
    top->left = tree;
    top->colour = tree->colour;
    tree->colour = RED;
    return top;
}

static struct Tree *turned_right(struct Tree *tree)
{
    struct Tree *top = tree->left;
    tree->left = top->right;
    top->right = tree;
    top->colour = tree->colour;
    tree->colour = RED;
    return top;
}

static struct Tree *inserted(struct Tree *tree, int key)
{
    if (!tree) {
        tree = malloc(sizeof(struct Tree));
        tree->key = key;
        tree->colour = RED;
        tree->left = tree->right = 0;
        return tree;
    }
    if (key < tree->key)
        tree->left = inserted(tree->left, key);
    else if (key > tree->key)
        tree->right = inserted(tree->right, key);
    if (is_red(tree->right) && !is_red(tree->left))
        tree = turned_left(tree);
    if (is_red(tree->left) && is_red(tree->left->left))
        tree = turned_right(tree);
    if (is_red(tree->left) && is_red(tree->right)) {
        tree->colour = RED;
        tree->left->colour = tree->right->colour = BLACK;
    }
    return tree;
}

/* The number of black nodes on each way down, or -1 where the ways differ or two reds meet. */
static int black_height(struct Tree *tree)
{
    int left, right;
    if (!tree)
        return 0;
    left = black_height(tree->left);
    right = black_height(tree->right);
    if (left < 0 || left != right || is_red(tree->right) || is_red(tree) && is_red(tree->left))
        return -1;
    return left + (tree->colour == BLACK);
}

static void print(struct Tree *tree)
{
    if (!tree)
        return;
    print(tree->left);
    putchar(tree->colour == RED ? '*' : ' ');
    put_unsigned(tree->key);
    print(tree->right);
}

static void release(struct Tree *tree)
{
    if (tree) {
        release(tree->left);
        release(tree->right);
        free(tree);
    }
}

int main(void)
{
    struct Tree *root = 0;
    int i, black = 0;
    for (i = 0; i < 100; i++) {
        root = inserted(root, i * 53 % 128);
        root->colour = BLACK;
        black = black_height(root);
        if (black < 0)
            return 255;
    }
    print(root);
    putchar('\n');
    release(root);
    return black;
}
