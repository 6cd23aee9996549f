/* A compiler and a machine in two files: this one reads assignments and prints of the input, and gives instructions to the other. */
int putchar(int);
int getchar(void);

enum Op { OP_PUSH, OP_LOAD, OP_STORE, OP_ADD, OP_SUB, OP_MUL, OP_PRINT };

void emit(enum Op, int);
int execute(void);
extern int emitted;

static int c;

static void skip(void)
{
    while (c == ' ')
        c = getchar();
}

static int takes(int sign)
{
    skip();
    if (c != sign)
        return 0;
    c = getchar();
    return 1;
}

static void sum(void);

static void factor(void)
{
    skip();
    if (takes('(')) {
        sum();
        takes(')');
    } else if (c >= 'a' && c <= 'z') {
        emit(OP_LOAD, c - 'a');
        c = getchar();
    } else {
        int value = 0;
        for (; c >= '0' && c <= '9'; c = getchar())
            value = value * 10 + c - '0';
        emit(OP_PUSH, value);
    }
}

static void product(void)
{
    factor();
    while (takes('*')) {
        factor();
        emit(OP_MUL, 0);
    }
}

static void sum(void)
{
    product();
    for (;;) {
        if (takes('+')) {
            product();
            emit(OP_ADD, 0);
        } else if (takes('-')) {
            product();
            emit(OP_SUB, 0);
        } else {
            return;
        }
    }
}

static void statement(void)
{
    int name;
    if (takes('!')) {
        sum();
        emit(OP_PRINT, 0);
        return;
    }
    name = c;
    c = getchar();
    takes('=');
    sum();
    emit(OP_STORE, name - 'a');
}

int main(void)
{
    int printed;
    c = getchar();
    while (c != -1) {
        statement();
        takes('\n');
    }
    printed = execute();
    putchar('0' + printed);
    putchar('\n');
    return emitted;
}
