/* Accounts kept by another file: this one makes transfers from a table and prints what comes of them. */
int putchar(int);

struct Account;

extern int transfers;
struct Account *account_of(const char *);
int balance(const struct Account *);
int pay(struct Account *, struct Account *, int);
void deposit(struct Account *, int);
void close_all(void);

struct Order {
    const char *from, *to;
    int amount;
};

static const struct Order orders[] = {
    { "ann", "bob", 30 }, { "bob", "cleo", 25 }, { "cleo", "ann", 70 }, { "ann", "dan", 50 }, { "bob", "bob", 1 }, { "dan", "ann", 55 },
};

static int refused;

static void put_text(const char *text)
{
    while (*text)
        putchar(*text++);
}
static void put_unsigned(unsigned n)
{
    if (n >= 10)
        put_unsigned(n / 10);
    putchar('0' + (int)(n % 10));
}

static void put_number(int n)
{
    unsigned size = (unsigned)n;
    if (n < 0) {
        putchar('-');
        size = 0u - size;
    }
    put_unsigned(size);
}

static void show(const char *name)
{
    put_text(name);
    putchar(' ');
    put_number(balance(account_of(name)));
    putchar('\n');
}

int main(void)
{
    unsigned i;
    deposit(account_of("ann"), 100);
    deposit(account_of("cleo"), 10);
    for (i = 0; i < sizeof orders / sizeof orders[0]; i++)
        if (!pay(account_of(orders[i].from), account_of(orders[i].to), orders[i].amount)) {
            put_text(orders[i].from);
            put_text(" can't pay\n");
            refused++;
        }
    show("ann");
    show("bob");
    show("cleo");
    show("dan");
    close_all();
    return transfers * 16 + refused;
}
