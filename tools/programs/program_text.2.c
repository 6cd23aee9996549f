/* The machine: instructions in a list of blocks, a stack and variables. */
void *malloc(unsigned);
void free(void *);
int putchar(int);

enum Op { OP_PUSH, OP_LOAD, OP_STORE, OP_ADD, OP_SUB, OP_MUL, OP_PRINT };

enum { ROOM = 4 };

struct Block {
    int used;
    enum Op ops[ROOM];
    int operands[ROOM];
    struct Block *next;
};

int emitted;

static struct Block *first, *last;
static int stack[20], *top = stack;
static int variables[26];
static int printed;

void emit(enum Op op, int operand)
{
    if (!last || last->used == ROOM) {
        struct Block *block = malloc(sizeof(struct Block));
        block->used = 0;
        block->next = 0;
        if (last)
            last->next = block;
        else
            first = block;
        last = block;
    }
    last->ops[last->used] = op;
    last->operands[last->used++] = operand;
    emitted++;
}

static void put_digits(unsigned n)
{
    if (n >= 10)
        put_digits(n / 10);
    putchar('0' + (int)(n % 10));
}

static void print(int n)
{
    if (n < 0)
        putchar('-');
    put_digits(n < 0 ? 0u - (unsigned)n : (unsigned)n);
    putchar('\n');
    printed++;
}

static void step(enum Op op, int operand)
{
    switch (op) {
    case OP_PUSH: *top++ = operand; break;
    case OP_LOAD: *top++ = variables[operand]; break;
    case OP_STORE: variables[operand] = *--top; break;
    case OP_PRINT: print(*--top); break;
    case OP_ADD: top--; top[-1] += *top; break;
    case OP_SUB: top--; top[-1] -= *top; break;
    case OP_MUL: top--; top[-1] *= *top; break;
    }
}

int execute(void)
{
    while (first) {
        struct Block *block = first;
        int i;
        for (i = 0; i < block->used; i++)
            step(block->ops[i], block->operands[i]);
        first = block->next;
        free(block);
    }
    return printed;
}
