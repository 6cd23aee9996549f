/* The towers of Hanoi without recursion: what is still to do lies on a stack; the towers are drawn at the beginning and now and then. */
void *malloc(unsigned);
void free(void *);
int putchar(int);

enum { DISCS = 5 };

struct Task {
    int discs, from, to;
    struct Task *below;
};

struct Tower {
    int height, discs[DISCS];
};

static struct Tower towers[3];

static struct Task *push(struct Task *below, int discs, int from, int to)
{
    struct Task *task = malloc(sizeof(struct Task));
    task->discs = discs;
    task->from = from;
    task->to = to;
    task->below = below;
    return task;
}

static int move(struct Tower *from, struct Tower *to)
{
    int disc = from->discs[--from->height];
    if (to->height > 0 && to->discs[to->height - 1] < disc)
        return 0;
    to->discs[to->height++] = disc;
    return 1;
}

static void draw(void)
{
    int row, t, i;
    for (row = DISCS - 1; row >= 0; row--) {
        for (t = 0; t < 3; t++) {
            int disc = row < towers[t].height ? towers[t].discs[row] : 0;
            for (i = 0; i < DISCS; i++)
                putchar(i < disc ? '=' : ' ');
            putchar(t < 2 ? '|' : '\n');
        }
    }
    putchar('\n');
}

int main(void)
{
    struct Task *stack;
    int moves = 0, i;
    for (i = DISCS; i > 0; i--)
        towers[0].discs[towers[0].height++] = i;
    stack = push(0, DISCS, 0, 2);
    draw();
    while (stack) {
        struct Task task = *stack;
        free(stack);
        stack = task.below;
        if (task.discs == 1) {
            if (!move(&towers[task.from], &towers[task.to]))
                return 255;
            if (++moves % 8 == 0)
                draw();
        } else {
            int other = 3 - task.from - task.to;
            stack = push(stack, task.discs - 1, other, task.to);
            stack = push(stack, 1, task.from, task.to);
            stack = push(stack, task.discs - 1, task.from, other);
        }
    }
    draw();
    return moves;
}
