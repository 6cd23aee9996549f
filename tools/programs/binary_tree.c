/* A binary search tree: insertion, deletion by key, in-order walk, height. */
void *malloc(unsigned);
void free(void *);
int putchar(int);

struct Tree {
    int key, count;
    struct Tree *left, *right;
};

static void put_unsigned(unsigned n)
{
    if (n >= 10)
        put_unsigned(n / 10);
    putchar('0' + (int)(n % 10));
}

static struct Tree **place_of(struct Tree **tree, int key)
{
    while (*tree && (*tree)->key != key)
        tree = key < (*tree)->key ? &(*tree)->left : &(*tree)->right;
    return tree;
}

static void insert(struct Tree **root, int key)
{
    struct Tree **place = place_of(root, key);
    if (!*place) {
        *place = malloc(sizeof(struct Tree));
        (*place)->key = key;
        (*place)->count = 0;
        (*place)->left = (*place)->right = 0;
    }
    (*place)->count++;
}

/* Takes the least node of a tree off and gives it. */
static struct Tree *taken_least(struct Tree **tree)
{
    struct Tree *least;
    while ((*tree)->left)
        tree = &(*tree)->left;
    least = *tree;
    *tree = least->right;
    return least;
}

static int erase(struct Tree **root, int key)
{
    struct Tree **place = place_of(root, key), *old = *place, *heir;
    if (!old)
        return 0;
    if (!old->left) {
        *place = old->right;
    } else if (!old->right) {
        *place = old->left;
    } else {
        heir = taken_least(&old->right);
        heir->left = old->left;
        heir->right = old->right;
        *place = heir;
    }
    free(old);
    return 1;
}

static int height(struct Tree *tree)
{
    int left, right;
    if (!tree)
        return 0;
    left = height(tree->left);
    right = height(tree->right);
    return 1 + (left > right ? left : right);
}

static void print(struct Tree *tree)
{
    if (!tree)
        return;
    print(tree->left);
    put_unsigned(tree->key);
    if (tree->count > 1) {
        putchar('x');
        put_unsigned(tree->count);
    }
    putchar(' ');
    print(tree->right);
}

static void release(struct Tree *tree)
{
    if (tree) {
        release(tree->left);
        release(tree->right);
        free(tree);
    }
}

int main(void)
{
    struct Tree *root = 0;
    int i, deep, erased = 0;
    for (i = 0; i < 64; i++)
        insert(&root, i * i % 97);
    print(root);
    putchar('\n');
    deep = height(root);
    for (i = 0; i < 97; i += 5)
        erased += erase(&root, i);
    print(root);
    putchar('\n');
    release(root);
    return 16 * deep + erased;
}
