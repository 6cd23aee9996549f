/* A rope: a text as a tree of pieces, with concatenation, letters by place, splitting, and insertion in the middle. */
void *malloc(unsigned);
void *memcpy(void *, const void *, unsigned);
void free(void *);
int putchar(int);

struct Rope {
    int length;
    struct Rope *left, *right;
    char *piece;
};

static struct Rope *piece(const char *text, int length)
{
    struct Rope *rope = malloc(sizeof(struct Rope));
    rope->length = length;
    rope->left = rope->right = 0;
    rope->piece = malloc(length);
    memcpy(rope->piece, text, length);
    return rope;
}

static struct Rope *rope_of(const char *text)
{
    int length = 0;
    while (text[length])
        length++;
    return piece(text, length);
}

static void release(struct Rope *rope)
{
    if (!rope)
        return;
    release(rope->left);
    release(rope->right);
    free(rope->piece);
    free(rope);
}

static struct Rope *joined(struct Rope *left, struct Rope *right)
{
    struct Rope *rope;
    if (left->length == 0 || right->length == 0) {
        rope = left->length == 0 ? right : left;
        release(rope == left ? right : left);
        return rope;
    }
    rope = malloc(sizeof(struct Rope));
    rope->length = left->length + right->length;
    rope->left = left;
    rope->right = right;
    rope->piece = 0;
    return rope;
}

static int letter_at(const struct Rope *rope, int at)
{
    while (!rope->piece) {
        if (at < rope->left->length) {
            rope = rope->left;
        } else {
            at -= rope->left->length;
            rope = rope->right;
        }
    }
    return rope->piece[at];
}

/* Takes a rope apart at a place. */
static void split(struct Rope *rope, int at, struct Rope **left, struct Rope **right)
{
    struct Rope *middle;
    if (rope->piece) {
        *left = piece(rope->piece, at);
        *right = piece(rope->piece + at, rope->length - at);
        release(rope);
        return;
    }
    if (at < rope->left->length) {
        split(rope->left, at, left, &middle);
        *right = joined(middle, rope->right);
    } else {
        split(rope->right, at - rope->left->length, &middle, right);
        *left = joined(rope->left, middle);
    }
    free(rope);
}

static struct Rope *with(struct Rope *rope, int at, const char *text)
{
    struct Rope *left, *right;
    split(rope, at, &left, &right);
    left = joined(left, rope_of(text));
    return joined(left, right);
}

static int depth(const struct Rope *rope)
{
    int left, right;
    if (rope->piece)
        return 1;
    left = depth(rope->left);
    right = depth(rope->right);
    return 1 + (left > right ? left : right);
}

int main(void)
{
    struct Rope *rope = rope_of("the dog"), *left, *right;
    int i, deep;
    rope = with(rope, 4, "lazy ");
    rope = with(rope, 0, "over ");
    rope = with(rope, 0, "a fox jumps ");
    rope = with(rope, 2, "brown ");
    rope = with(rope, 2, "quick ");
    rope = with(rope, rope->length, ".\n");
    for (i = 0; i < rope->length; i++)
        putchar(letter_at(rope, i));
    deep = depth(rope);
    split(rope, 17, &left, &right);
    rope = joined(right, left);
    for (i = 0; i < rope->length; i++)
        putchar(letter_at(rope, i));
    putchar('\n');
    release(rope);
    return deep;
}
