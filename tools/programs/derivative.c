/* Expressions as trees: read from strings, differentiated, made simpler and printed; shared parts are counted by references. */
void *malloc(unsigned);
void free(void *);
int putchar(int);

struct Expr {
    char sign;
    int number, references;
    struct Expr *left, *right;
};

static const char *input;
static int living;

static void put_unsigned(unsigned n)
{
    if (n >= 10)
        put_unsigned(n / 10);
    putchar('0' + (int)(n % 10));
}

static void put_number(int n)
{
    unsigned size = (unsigned)n;
    if (n < 0) {
        putchar('-');
        size = 0u - size;
    }
    put_unsigned(size);
}

static struct Expr *node(char sign, int number, struct Expr *left, struct Expr *right)
{
    struct Expr *e = malloc(sizeof(struct Expr));
    e->sign = sign;
    e->number = number;
    e->references = 1;
    e->left = left;
    e->right = right;
    living++;
    return e;
}

static struct Expr *shared(struct Expr *e)
{
    e->references++;
    return e;
}

static void drop(struct Expr *e)
{
    if (e && --e->references == 0) {
        drop(e->left);
        drop(e->right);
        free(e);
        living--;
    }
}

static int is_number(const struct Expr *e, int n)
{
    return e->sign == 'n' && e->number == n;
}

/* A sum or product of parts that are given away, made simpler where one of them is a number. */
static struct Expr *made(char sign, struct Expr *left, struct Expr *right)
{
    struct Expr *kept = 0;
    if (left->sign == 'n' && right->sign == 'n')
        kept = node('n', sign == '+' ? left->number + right->number : left->number * right->number, 0, 0);
    else if (sign == '*' && (is_number(left, 0) || is_number(right, 0)))
        kept = node('n', 0, 0, 0);
    else if (is_number(left, sign == '*'))
        kept = shared(right);
    else if (is_number(right, sign == '*'))
        kept = shared(left);
    if (!kept)
        return node(sign, 0, left, right);
    drop(left);
    drop(right);
    return kept;
}

static struct Expr *parse_sum(void);

static struct Expr *parse_atom(void)
{
    struct Expr *e;
    int n = 0;
    if (*input == '(') {
        input++;
        e = parse_sum();
        input++;
        return e;
    }
    if (*input == 'x') {
        input++;
        return node('x', 0, 0, 0);
    }
    while (*input >= '0' && *input <= '9')
        n = n * 10 + *input++ - '0';
    return node('n', n, 0, 0);
}

static struct Expr *parse_product(void)
{
    struct Expr *e = parse_atom();
    while (*input == '*') {
        input++;
        e = node('*', 0, e, parse_atom());
    }
    return e;
}

static struct Expr *parse_sum(void)
{
    struct Expr *e = parse_product();
    while (*input == '+') {
        input++;
        e = node('+', 0, e, parse_product());
    }
    return e;
}

static struct Expr *derivative(struct Expr *e)
{
    struct Expr *first;
    switch (e->sign) {
    case 'n': return node('n', 0, 0, 0);
    case 'x': return node('n', 1, 0, 0);
    case '+':
        first = derivative(e->left);
        return made('+', first, derivative(e->right));
    default:
        first = made('*', derivative(e->left), shared(e->right));
        return made('+', first, made('*', shared(e->left), derivative(e->right)));
    }
}

static void print(const struct Expr *e)
{
    if (e->sign == 'n') {
        put_number(e->number);
    } else if (e->sign == 'x') {
        putchar('x');
    } else {
        putchar('(');
        print(e->left);
        putchar(e->sign);
        print(e->right);
        putchar(')');
    }
}

int main(void)
{
    static const char *const texts[] = { "7", "x", "3*x+2", "x*x*x", "(x+1)*(2*x+3)", "5*(x*x+x)+x*(x+x*2)" };
    unsigned i;
    int most = 0;
    for (i = 0; i < sizeof texts / sizeof *texts; i++) {
        struct Expr *e, *d, *dd;
        input = texts[i];
        e = parse_sum();
        d = derivative(e);
        dd = derivative(d);
        print(e);
        putchar(' ');
        print(d);
        putchar(' ');
        print(dd);
        putchar('\n');
        if (living > most)
            most = living;
        drop(e);
        drop(d);
        drop(dd);
    }
    return living ? 255 : most;
}
