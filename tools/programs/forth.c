/* A small Forth: words of the input are numbers, built-in words or words defined by `: name .. ;`, with if, else, then and loops until zero. */
void exit(int);
int putchar(int);
int getchar(void);

enum { CELLS = 1000, STACK = 100, NAMES = 60, LONGEST = 12 };
enum Code { NUMBER, CALL, RETURN, JUMP, JUMP_IF_ZERO, PRIMITIVE };

typedef void (*Primitive)(void);

struct Cell {
    enum Code code;
    int operand;
    Primitive primitive;
};

struct Word {
    char name[LONGEST];
    int begin;
};

static struct Cell cells[CELLS];
static struct Word words[NAMES];
static int cell_count, word_count;
static int stack[STACK], height;
static char name[LONGEST];

static void put_text(const char *text)
{
    while (*text)
        putchar(*text++);
}
static void put_unsigned(unsigned n)
{
    if (n >= 10)
        put_unsigned(n / 10);
    putchar('0' + (int)(n % 10));
}

static void put_number(int n)
{
    unsigned size = (unsigned)n;
    if (n < 0) {
        putchar('-');
        size = 0u - size;
    }
    put_unsigned(size);
}

static void fail(const char *text)
{
    put_text(text);
    putchar('?');
    putchar('\n');
    exit(100);
}

static void push(int value)
{
    if (height == STACK)
        fail("full");
    stack[height++] = value;
}

static int pop(void)
{
    if (height == 0)
        fail("empty");
    return stack[--height];
}

static void add(void) { int b = pop(), a = pop(); push(a + b); }
static void subtract(void) { int b = pop(), a = pop(); push(a - b); }
static void multiply(void) { int b = pop(), a = pop(); push(a * b); }
static void less(void) { int b = pop(), a = pop(); push(a < b); }
static void swap(void) { int b = pop(), a = pop(); push(b); push(a); }
static void over(void) { int b = pop(), a = pop(); push(a); push(b); push(a); }
static void drop(void) { pop(); }
static void dup(void) { int a = pop(); push(a); push(a); }
static void dot(void) { put_number(pop()); putchar(' '); }
static void cr(void) { putchar('\n'); }
static void emit(void) { putchar(pop()); }

static int is_same(const char *a, const char *b)
{
    while (*a && *a == *b) {
        a++;
        b++;
    }
    return *a == *b;
}

static struct Cell *compile(enum Code code, int operand)
{
    struct Cell *cell = &cells[cell_count++];
    cell->code = code;
    cell->operand = operand;
    cell->primitive = 0;
    return cell;
}

static struct Word *new_word(const char *text)
{
    struct Word *word = &words[word_count++];
    char *to = word->name;
    while ((*to++ = *text++) != 0)
        ;
    word->begin = cell_count;
    return word;
}

static void built_in(const char *text, Primitive primitive)
{
    new_word(text);
    compile(PRIMITIVE, 0)->primitive = primitive;
    compile(RETURN, 0);
}

static int read_name(void)
{
    int c, size = 0;
    do
        c = getchar();
    while (c == ' ' || c == '\n');
    for (; c != -1 && c != ' ' && c != '\n'; c = getchar())
        if (size < LONGEST - 1)
            name[size++] = c;
    name[size] = 0;
    return size > 0;
}

static struct Word *find(void)
{
    struct Word *word = &words[word_count];
    while (word > words)
        if (is_same((--word)->name, name))
            return word;
    return 0;
}

static int is_number(int *value)
{
    const char *text = name;
    *value = 0;
    while (*text >= '0' && *text <= '9')
        *value = *value * 10 + *text++ - '0';
    return *text == 0;
}

static void run(int at)
{
    for (;;) {
        struct Cell *cell = &cells[at++];
        switch (cell->code) {
        case NUMBER: push(cell->operand); break;
        case CALL: run(cell->operand); break;
        case RETURN: return;
        case JUMP: at = cell->operand; break;
        case JUMP_IF_ZERO:
            if (pop() == 0)
                at = cell->operand;
            break;
        case PRIMITIVE: cell->primitive(); break;
        }
    }
}

/* Compiles the name just read; places of jumps that are open lie on a stack of their own. */
static void compile_name(void)
{
    static int open[10], depth;
    struct Word *word;
    int value;
    if (is_same(name, "if")) {
        open[depth++] = cell_count;
        compile(JUMP_IF_ZERO, 0);
    } else if (is_same(name, "else")) {
        compile(JUMP, 0);
        cells[open[depth - 1]].operand = cell_count;
        open[depth - 1] = cell_count - 1;
    } else if (is_same(name, "then")) {
        cells[open[--depth]].operand = cell_count;
    } else if (is_same(name, "begin")) {
        open[depth++] = cell_count;
    } else if (is_same(name, "until")) {
        compile(JUMP_IF_ZERO, open[--depth]);
    } else if ((word = find()) != 0) {
        compile(CALL, word->begin);
    } else if (is_number(&value)) {
        compile(NUMBER, value);
    } else {
        fail(name);
    }
}

int main(void)
{
    built_in("+", add);
    built_in("-", subtract);
    built_in("*", multiply);
    built_in("<", less);
    built_in("swap", swap);
    built_in("over", over);
    built_in("drop", drop);
    built_in("dup", dup);
    built_in(".", dot);
    built_in("cr", cr);
    built_in("emit", emit);
    while (read_name()) {
        int begin = cell_count;
        if (is_same(name, ":")) {
            read_name();
            new_word(name);
            while (read_name() && !is_same(name, ";"))
                compile_name();
            compile(RETURN, 0);
        } else {
            compile_name();
            compile(RETURN, 0);
            run(begin);
            cell_count = begin;
        }
    }
    return height;
}
