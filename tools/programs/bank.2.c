/* The accounts: a list by name, made as they are asked for, and a count of transfers that other files see. */
void *malloc(unsigned);
void free(void *);

struct Account {
    const char *name;
    int balance;
    struct Account *next;
};

int transfers = 0;

static struct Account *accounts;

static int is_same(const char *a, const char *b)
{
    while (*a && *a == *b) {
        a++;
        b++;
    }
    return *a == *b;
}

struct Account *account_of(const char *name)
{
    struct Account *account;
    for (account = accounts; account; account = account->next)
        if (is_same(account->name, name))
            return account;
    account = malloc(sizeof(struct Account));
    account->name = name;
    account->balance = 0;
    account->next = accounts;
    accounts = account;
    return account;
}

int balance(const struct Account *account)
{
    return account->balance;
}

void deposit(struct Account *account, int amount)
{
    account->balance += amount;
}

int pay(struct Account *from, struct Account *to, int amount)
{
    if (from == to || from->balance < amount)
        return 0;
    from->balance -= amount;
    to->balance += amount;
    transfers++;
    return 1;
}

void close_all(void)
{
    while (accounts) {
        struct Account *next = accounts->next;
        free(accounts);
        accounts = next;
    }
}
