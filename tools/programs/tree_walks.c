/* Walks over a binary tree that need no recursion: by a stack of places, by threads to the next node (Morris), and by levels. */
void *malloc(unsigned);
void free(void *);
int putchar(int);

struct Tree {
    char letter;
    struct Tree *left, *right;
};

struct Step {
    struct Tree *tree;
    struct Step *below;
};

static struct Tree *tree(char letter, struct Tree *left, struct Tree *right)
{
    struct Tree *made = malloc(sizeof(struct Tree));
    made->letter = letter;
    made->left = left;
    made->right = right;
    return made;
}

static struct Tree *built(const char **text)
{
    struct Tree *left, *right;
    char letter = *(*text)++;
    if (letter == '.')
        return 0;
    left = built(text);
    right = built(text);
    return tree(letter, left, right);
}

static void push(struct Step **stack, struct Tree *at)
{
    struct Step *step = malloc(sizeof(struct Step));
    step->tree = at;
    step->below = *stack;
    *stack = step;
}

static struct Tree *pop(struct Step **stack)
{
    struct Step *step = *stack;
    struct Tree *at = step->tree;
    *stack = step->below;
    free(step);
    return at;
}

static void in_order_by_stack(struct Tree *at)
{
    struct Step *stack = 0;
    while (at || stack) {
        if (at) {
            push(&stack, at);
            at = at->left;
        } else {
            at = pop(&stack);
            putchar(at->letter);
            at = at->right;
        }
    }
    putchar('\n');
}

static void in_order_by_threads(struct Tree *at)
{
    while (at) {
        struct Tree *last = at->left;
        if (last) {
            while (last->right && last->right != at)
                last = last->right;
            if (!last->right) {
                last->right = at;
                at = at->left;
                continue;
            }
            last->right = 0;
        }
        putchar(at->letter);
        at = at->right;
    }
    putchar('\n');
}

static int by_levels(struct Tree *root)
{
    struct Tree *queue[32];
    int first = 0, last = 0, level_end, levels = 0;
    queue[last++] = root;
    while (first < last) {
        for (level_end = last; first < level_end; first++) {
            putchar(queue[first]->letter);
            if (queue[first]->left)
                queue[last++] = queue[first]->left;
            if (queue[first]->right)
                queue[last++] = queue[first]->right;
        }
        putchar('\n');
        levels++;
    }
    return levels;
}

/* Frees the tree by turning left branches to the right. */
static int release(struct Tree *at)
{
    int count = 0;
    while (at) {
        struct Tree *left = at->left;
        if (left) {
            at->left = left->right;
            left->right = at;
            at = left;
        } else {
            struct Tree *next = at->right;
            free(at);
            at = next;
            count++;
        }
    }
    return count;
}

int main(void)
{
    const char *text = "fba..dc..e..g.ih...";
    struct Tree *root;
    int levels;
    root = built(&text);
    in_order_by_stack(root);
    in_order_by_threads(root);
    in_order_by_stack(root);
    levels = by_levels(root);
    return levels * 16 + release(root);
}
