/* Josephus: people in a circle, of whom each k-th leaves, by a ring of links and by arithmetic. */
void *malloc(unsigned);
void free(void *);
int putchar(int);

struct Person {
    int number;
    struct Person *next;
};

static void put_unsigned(unsigned n)
{
    if (n >= 10)
        put_unsigned(n / 10);
    putchar('0' + (int)(n % 10));
}

static struct Person *circle(int count)
{
    struct Person *first = 0, *last = 0;
    int i;
    for (i = 1; i <= count; i++) {
        struct Person *person = malloc(sizeof(struct Person));
        person->number = i;
        if (last)
            last->next = person;
        else
            first = person;
        last = person;
    }
    last->next = first;
    return last;
}

static int survivor_of(int count, int k)
{
    struct Person *before = circle(count);
    int i, number;
    while (before->next != before) {
        struct Person *leaving;
        for (i = 1; i < k; i++)
            before = before->next;
        leaving = before->next;
        put_unsigned(leaving->number);
        putchar(' ');
        before->next = leaving->next;
        free(leaving);
    }
    number = before->number;
    free(before);
    putchar('[');
    put_unsigned(number);
    putchar(']');
    putchar('\n');
    return number;
}

static int by_arithmetic(int count, int k)
{
    int at = 0, n;
    for (n = 2; n <= count; n++)
        at = (at + k) % n;
    return at + 1;
}

int main(void)
{
    int k, wrong = 0, sum = 0;
    for (k = 1; k <= 8; k++) {
        int number = survivor_of(41, k);
        sum += number;
        wrong += number != by_arithmetic(41, k);
    }
    return wrong ? 255 : sum;
}
