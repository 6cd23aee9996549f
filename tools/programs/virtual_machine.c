/* A small stack machine with calls: its program computes greatest common divisors and a factorial by recursion. */
void exit(int);
int putchar(int);

enum Op { PUSH, LOAD, STORE, ADD, SUB, MUL, MOD, LESS, JUMP, JUMP_IF_ZERO, CALL, RETURN, PRINT, HALT };

struct Instruction {
    enum Op op;
    int operand;
};

struct Frame {
    int locals[4];
    int next;
};

static void put_unsigned(unsigned n)
{
    if (n >= 10)
        put_unsigned(n / 10);
    putchar('0' + (int)(n % 10));
}

static void put_number(int n)
{
    unsigned size = (unsigned)n;
    if (n < 0) {
        putchar('-');
        size = 0u - size;
    }
    put_unsigned(size);
}

static struct Instruction program[] = {
    { PUSH, 252 }, { PUSH, 105 }, { CALL, 10 }, { PRINT, 0 },
    { PUSH, 9 }, { CALL, 23 }, { PRINT, 0 },
    { PUSH, 17 }, { HALT, 0 }, { HALT, 0 },
    /* 10: gcd(a, b), with b on top */
    { STORE, 1 }, { STORE, 0 },
    { LOAD, 1 }, { JUMP_IF_ZERO, 21 },
    { LOAD, 0 }, { LOAD, 1 }, { MOD, 0 }, { LOAD, 1 }, { STORE, 0 }, { STORE, 1 }, { JUMP, 12 },
    { LOAD, 0 }, { RETURN, 0 },
    /* 23: factorial(n) */
    { STORE, 0 }, { LOAD, 0 }, { JUMP_IF_ZERO, 33 },
    { LOAD, 0 }, { LOAD, 0 }, { PUSH, 1 }, { SUB, 0 }, { CALL, 23 }, { MUL, 0 }, { RETURN, 0 },
    { PUSH, 1 }, { RETURN, 0 },
};

static int stack[64], height;
static struct Frame frames[16];
static int depth;

static void push(int value)
{
    if (height == 64)
        exit(200);
    stack[height++] = value;
}

static int pop(void)
{
    if (height == 0)
        exit(201);
    return stack[--height];
}

static int applied(enum Op op, int a, int b)
{
    switch (op) {
    case ADD: return a + b;
    case SUB: return a - b;
    case MUL: return a * b;
    case MOD: return b ? a % b : 0;
    default: return a < b;
    }
}

static int run(void)
{
    int at = 0, b;
    for (;;) {
        struct Instruction *now = &program[at++];
        struct Frame *frame = &frames[depth];
        switch (now->op) {
        case PUSH: push(now->operand); break;
        case LOAD: push(frame->locals[now->operand]); break;
        case STORE: frame->locals[now->operand] = pop(); break;
        case ADD:
        case SUB:
        case MUL:
        case MOD:
        case LESS:
            b = pop();
            push(applied(now->op, pop(), b));
            break;
        case JUMP: at = now->operand; break;
        case JUMP_IF_ZERO:
            if (pop() == 0)
                at = now->operand;
            break;
        case CALL:
            frame->next = at;
            if (++depth == 16)
                exit(202);
            at = now->operand;
            break;
        case RETURN:
            at = frames[--depth].next;
            break;
        case PRINT:
            put_number(pop());
            putchar('\n');
            break;
        case HALT:
            return pop();
        }
    }
}

int main(void)
{
    return run();
}
