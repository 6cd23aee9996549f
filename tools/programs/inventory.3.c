/* Prints the stock; `provide` and `put` are this file's own. */
int putchar(int);

struct Need;

struct Part {
    const char *name;
    int stock;
    struct Need *needs;
    struct Part *next;
};

extern struct Part *parts;

static void put(const char *text)
{
    while (*text)
        putchar(*text++);
}

static int provide(int n)
{
    if (n >= 10)
        provide(n / 10);
    putchar('0' + n % 10);
    return n;
}

void print_stock(void)
{
    const struct Part *part;
    for (part = parts; part; part = part->next) {
        put(part->name);
        putchar(' ');
        provide(part->stock);
        putchar(part->next ? ',' : '\n');
    }
}
