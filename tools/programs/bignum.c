/* Whole numbers of any length in arrays of digits to the base 10000: factorials, powers and Fibonacci numbers. */
void *malloc(unsigned);
void *calloc(unsigned, unsigned);
void free(void *);
int putchar(int);

enum { BASE = 10000, DIGITS = 4 };

struct Number {
    int length, room;
    unsigned short *digits;
};

static struct Number *number(unsigned value, int room)
{
    struct Number *n = malloc(sizeof(struct Number));
    n->length = 0;
    n->room = room;
    n->digits = calloc(room, sizeof(unsigned short));
    for (; value; value /= BASE)
        n->digits[n->length++] = value % BASE;
    return n;
}

static void release(struct Number *n)
{
    free(n->digits);
    free(n);
}

static void multiply(struct Number *n, unsigned by)
{
    unsigned carry = 0;
    int i;
    for (i = 0; i < n->length; i++) {
        carry += n->digits[i] * by;
        n->digits[i] = carry % BASE;
        carry /= BASE;
    }
    for (; carry; carry /= BASE)
        n->digits[n->length++] = carry % BASE;
}

static void add(struct Number *n, const struct Number *other)
{
    int i, carry = 0;
    for (i = 0; i < other->length || i < n->length || carry; i++) {
        carry += n->digits[i];
        if (i < other->length)
            carry += other->digits[i];
        n->digits[i] = carry % BASE;
        carry /= BASE;
    }
    n->length = i;
}

static int digit_sum(const struct Number *n)
{
    int i, sum = 0, digit;
    for (i = 0; i < n->length; i++)
        for (digit = n->digits[i]; digit; digit /= 10)
            sum += digit % 10;
    return sum;
}

static void print(const struct Number *n)
{
    int i, place, begun = 0;
    for (i = n->length - 1; i >= 0; i--)
        for (place = BASE / 10; place; place /= 10) {
            int digit = n->digits[i] / place % 10;
            begun = begun || digit;
            if (begun)
                putchar('0' + digit);
        }
    if (!begun)
        putchar('0');
    putchar('\n');
}

int main(void)
{
    struct Number *factorial = number(1, 50), *power = number(1, 50), *a = number(0, 50), *b = number(1, 50);
    int i, sum;
    for (i = 2; i <= 60; i++)
        multiply(factorial, i);
    print(factorial);
    for (i = 0; i < 200; i++)
        multiply(power, 2);
    print(power);
    for (i = 0; i < 250; i++) {
        struct Number *kept = a;
        add(a, b);
        a = b;
        b = kept;
    }
    print(a);
    sum = digit_sum(factorial);
    release(factorial);
    release(power);
    release(a);
    release(b);
    return sum & 255;
}
