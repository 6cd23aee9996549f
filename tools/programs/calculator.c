/* A tokenizer and a calculator by recursive descent: a line, an expression with the variables a to z; the value or an error is printed. */
int putchar(int);
int getchar(void);

enum Kind { NUMBER, NAME, SIGN, END };

struct Token {
    enum Kind kind;
    int value;
};

static struct Token token;
static int next_char;
static const char *fault;
static int variables[26];

static void put_text(const char *text)
{
    while (*text)
        putchar(*text++);
}
static void put_unsigned(unsigned n)
{
    if (n >= 10)
        put_unsigned(n / 10);
    putchar('0' + (int)(n % 10));
}

static void put_number(int n)
{
    unsigned size = (unsigned)n;
    if (n < 0) {
        putchar('-');
        size = 0u - size;
    }
    put_unsigned(size);
}

static void advance(void)
{
    while (next_char == ' ')
        next_char = getchar();
    token.value = next_char;
    if (next_char == '\n' || next_char == -1) {
        token.kind = END;
        return;
    }
    if (next_char >= '0' && next_char <= '9') {
        token.kind = NUMBER;
        token.value = 0;
        while (next_char >= '0' && next_char <= '9') {
            token.value = token.value * 10 + next_char - '0';
            next_char = getchar();
        }
        return;
    }
    token.kind = next_char >= 'a' && next_char <= 'z' ? NAME : SIGN;
    next_char = getchar();
}

static int takes(int sign)
{
    if (token.kind != SIGN || token.value != sign)
        return 0;
    advance();
    return 1;
}

static void fail(const char *text)
{
    if (!fault)
        fault = text;
}

static int assignment(void);

static int primary(void)
{
    int value = token.value;
    if (token.kind == NUMBER) {
        advance();
    } else if (token.kind == NAME) {
        advance();
        value = variables[value - 'a'];
    } else if (takes('(')) {
        value = assignment();
        if (!takes(')'))
            fail("a parenthesis is open");
    } else if (takes('-')) {
        value = -primary();
    } else {
        fail("a value is missing");
        value = 0;
    }
    return value;
}

static int product(void)
{
    int value = primary(), right;
    for (;;) {
        if (takes('*')) {
            right = primary();
            value *= right;
        } else if (takes('/')) {
            right = primary();
            if (right == 0)
                fail("division by zero");
            else
                value /= right;
        } else {
            return value;
        }
    }
}

static int sum(void)
{
    int value = product(), right;
    for (;;) {
        if (takes('+')) {
            right = product();
            value += right;
        } else if (takes('-')) {
            right = product();
            value -= right;
        } else {
            return value;
        }
    }
}

static int assignment(void)
{
    int is_name = token.kind == NAME, name = token.value, value = sum();
    if (is_name && takes('=')) {
        value = assignment();
        variables[name - 'a'] = value;
    }
    return value;
}

int main(void)
{
    int faults = 0, value;
    next_char = getchar();
    while (next_char != -1) {
        fault = 0;
        advance();
        value = assignment();
        if (token.kind != END)
            fail("something is left");
        while (token.kind != END)
            advance();
        if (fault) {
            put_text(fault);
            faults++;
        } else {
            put_number(value);
        }
        putchar('\n');
        if (next_char == '\n')
            next_char = getchar();
    }
    return faults;
}
