/* A singly linked list: sorted insertion, reversal, removal by a test, and a sum on the way. */
void *malloc(unsigned);
void free(void *);
int putchar(int);

struct Node {
    int value;
    struct Node *next;
};

static void put_unsigned(unsigned n)
{
    if (n >= 10)
        put_unsigned(n / 10);
    putchar('0' + (int)(n % 10));
}

static struct Node *node_of(int value, struct Node *next)
{
    struct Node *node = malloc(sizeof(struct Node));
    node->value = value;
    node->next = next;
    return node;
}

static void insert_sorted(struct Node **head, int value)
{
    while (*head && (*head)->value < value)
        head = &(*head)->next;
    *head = node_of(value, *head);
}

static struct Node *reversed(struct Node *list)
{
    struct Node *done = 0;
    while (list) {
        struct Node *next = list->next;
        list->next = done;
        done = list;
        list = next;
    }
    return done;
}

/* Takes out every node whose value is a multiple of n, and says how many there were. */
static int remove_multiples(struct Node **head, int n)
{
    int removed = 0;
    while (*head) {
        struct Node *node = *head;
        if (node->value % n == 0) {
            *head = node->next;
            free(node);
            removed++;
        } else {
            head = &node->next;
        }
    }
    return removed;
}

static void print(struct Node *list)
{
    for (; list; list = list->next) {
        put_unsigned(list->value);
        putchar(list->next ? ' ' : '\n');
    }
}

static void release(struct Node *list)
{
    while (list) {
        struct Node *next = list->next;
        free(list);
        list = next;
    }
}

int main(void)
{
    struct Node *list = 0;
    int i, removed;
    for (i = 0; i < 40; i++)
        insert_sorted(&list, i * 37 % 101);
    print(list);
    list = reversed(list);
    print(list);
    removed = remove_multiples(&list, 3);
    print(list);
    release(list);
    return removed;
}
