/* Sorts a linked list by merging: halves by a slow and a fast walk, and also from below with a row of lists; both are stable. */
void *malloc(unsigned);
void free(void *);
int putchar(int);

struct Card {
    int rank;
    char suit;
    struct Card *next;
};

static struct Card *merged(struct Card *a, struct Card *b)
{
    struct Card *list = 0, **end = &list;
    while (a && b) {
        struct Card **from = b->rank < a->rank ? &b : &a;
        *end = *from;
        *from = (*from)->next;
        end = &(*end)->next;
    }
    *end = a ? a : b;
    return list;
}

static struct Card *sorted(struct Card *list)
{
    struct Card *slow = list, *fast, *second;
    if (!list || !list->next)
        return list;
    for (fast = list->next; fast && fast->next; fast = fast->next->next)
        slow = slow->next;
    second = slow->next;
    slow->next = 0;
    list = sorted(list);
    return merged(list, sorted(second));
}

static struct Card *sorted_from_below(struct Card *list)
{
    struct Card *runs[10] = { 0 }, *run;
    int i;
    while (list) {
        run = list;
        list = list->next;
        run->next = 0;
        for (i = 0; runs[i]; i++) {
            run = merged(runs[i], run);
            runs[i] = 0;
        }
        runs[i] = run;
    }
    run = 0;
    for (i = 0; i < 10; i++)
        run = merged(runs[i], run);
    return run;
}

static struct Card *deck(void)
{
    struct Card *list = 0, *card;
    int i;
    for (i = 0; i < 26; i++) {
        card = malloc(sizeof(struct Card));
        card->rank = i * 11 % 26 % 13;
        card->suit = "cdhs"[i * 11 % 26 / 13 + i % 2 * 2];
        card->next = list;
        list = card;
    }
    return list;
}

static int is_sorted(const struct Card *list)
{
    for (; list && list->next; list = list->next)
        if (list->rank > list->next->rank)
            return 0;
    return 1;
}

static void print(const struct Card *list)
{
    for (; list; list = list->next) {
        putchar("23456789TJQKA"[list->rank]);
        putchar(list->suit);
        putchar(list->next ? ' ' : '\n');
    }
}

static int release(struct Card *list)
{
    int count = 0;
    while (list) {
        struct Card *next = list->next;
        free(list);
        list = next;
        count++;
    }
    return count;
}

int main(void)
{
    struct Card *first = deck(), *second = deck();
    int good;
    print(first);
    first = sorted(first);
    second = sorted_from_below(second);
    print(first);
    print(second);
    good = is_sorted(first) && is_sorted(second);
    return release(first) + release(second) + (good ? 0 : 100);
}
