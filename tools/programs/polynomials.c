/* Polynomials with whole coefficients as lists of terms: sum, product, derivative, and value by Horner's rule. */
void *malloc(unsigned);
void free(void *);
int putchar(int);

struct Term {
    int factor, power;
    struct Term *next;
};

static void put_unsigned(unsigned n)
{
    if (n >= 10)
        put_unsigned(n / 10);
    putchar('0' + (int)(n % 10));
}

static void put_number(int n)
{
    unsigned size = (unsigned)n;
    if (n < 0) {
        putchar('-');
        size = 0u - size;
    }
    put_unsigned(size);
}

static void add_term(struct Term **list, int factor, int power)
{
    struct Term *term;
    while (*list && (*list)->power > power)
        list = &(*list)->next;
    if (*list && (*list)->power == power) {
        (*list)->factor += factor;
        if ((*list)->factor == 0) {
            term = *list;
            *list = term->next;
            free(term);
        }
        return;
    }
    if (factor == 0)
        return;
    term = malloc(sizeof *term);
    term->factor = factor;
    term->power = power;
    term->next = *list;
    *list = term;
}

static struct Term *product(const struct Term *a, const struct Term *b)
{
    struct Term *result = 0;
    const struct Term *other;
    for (; a; a = a->next)
        for (other = b; other; other = other->next)
            add_term(&result, a->factor * other->factor, a->power + other->power);
    return result;
}

static struct Term *derivative(const struct Term *a)
{
    struct Term *result = 0;
    for (; a; a = a->next)
        if (a->power)
            add_term(&result, a->factor * a->power, a->power - 1);
    return result;
}

static int value_at(const struct Term *a, int x)
{
    int value = 0;
    for (; a; a = a->next) {
        int steps = a->power - (a->next ? a->next->power : 0);
        value += a->factor;
        while (steps-- > 0)
            value *= x;
    }
    return value;
}

static void print(const struct Term *a)
{
    int is_first = 1;
    for (; a; a = a->next) {
        if (!is_first && a->factor > 0)
            putchar('+');
        put_number(a->factor);
        if (a->power) {
            putchar('x');
            putchar('^');
            put_number(a->power);
        }
        is_first = 0;
    }
    if (is_first)
        putchar('0');
    putchar('\n');
}

static void release(struct Term *a)
{
    while (a) {
        struct Term *next = a->next;
        free(a);
        a = next;
    }
}

int main(void)
{
    struct Term *base = 0, *power = 0, *next;
    int i, value;
    add_term(&base, 1, 1);
    add_term(&base, -2, 0);
    add_term(&power, 1, 0);
    for (i = 0; i < 6; i++) {
        next = product(power, base);
        release(power);
        power = next;
    }
    print(power);
    value = value_at(power, 4);
    while (power) {
        next = derivative(power);
        release(power);
        power = next;
        print(power);
    }
    release(base);
    return value;
}
