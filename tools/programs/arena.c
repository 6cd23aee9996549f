/* An arena: small pieces cut from large blocks, given back all at once; a tree of expressions is built in it and computed. */
void *malloc(unsigned);
void free(void *);
int putchar(int);

enum { BLOCK = 256 };

struct Block {
    struct Block *before;
    int used;
    int words[BLOCK];
};

struct Arena {
    struct Block *last;
    int blocks;
};

struct Tree {
    int sign, value;
    struct Tree *left, *right;
};

static void put_unsigned(unsigned n)
{
    if (n >= 10)
        put_unsigned(n / 10);
    putchar('0' + (int)(n % 10));
}

static void put_number(int n)
{
    unsigned size = (unsigned)n;
    if (n < 0) {
        putchar('-');
        size = 0u - size;
    }
    put_unsigned(size);
}

static void *allocate(struct Arena *arena, unsigned bytes)
{
    int words = (bytes + sizeof(int) - 1) / sizeof(int), *piece;
    if (!arena->last || arena->last->used + words > BLOCK) {
        struct Block *block = malloc(sizeof(struct Block));
        block->before = arena->last;
        block->used = 0;
        arena->last = block;
        arena->blocks++;
    }
    piece = arena->last->words + arena->last->used;
    arena->last->used += words;
    return piece;
}

static void release(struct Arena *arena)
{
    while (arena->last) {
        struct Block *before = arena->last->before;
        free(arena->last);
        arena->last = before;
    }
}

static struct Tree *node(struct Arena *arena, int sign, int value, struct Tree *left, struct Tree *right)
{
    struct Tree *tree = allocate(arena, sizeof(struct Tree));
    tree->sign = sign;
    tree->value = value;
    tree->left = left;
    tree->right = right;
    return tree;
}

static struct Tree *grown(struct Arena *arena, int depth, int seed)
{
    struct Tree *left, *right;
    if (depth == 0)
        return node(arena, 0, seed % 10, 0, 0);
    left = grown(arena, depth - 1, seed * 3 + 1);
    right = grown(arena, depth - 1, seed * 5 + 2);
    return node(arena, "+-*"[seed % 3], 0, left, right);
}

static int value_of(const struct Tree *tree)
{
    int left, right;
    if (!tree->sign)
        return tree->value;
    left = value_of(tree->left);
    right = value_of(tree->right);
    switch (tree->sign) {
    case '+': return left + right;
    case '-': return left - right;
    default: return left * right;
    }
}

static void print(const struct Tree *tree)
{
    if (!tree->sign) {
        put_number(tree->value);
        return;
    }
    putchar('(');
    print(tree->left);
    putchar(tree->sign);
    print(tree->right);
    putchar(')');
}

int main(void)
{
    struct Arena arena = { 0, 0 };
    struct Tree *small = grown(&arena, 3, 1), *large = grown(&arena, 7, 4);
    print(small);
    putchar('=');
    put_number(value_of(small));
    putchar('\n');
    put_number(value_of(large));
    putchar('\n');
    release(&arena);
    return arena.blocks;
}
