/* expect: Outside at line 18 */
void *malloc(unsigned);

struct Head {
    int kind;
};

struct Item {
    struct Head head;
    int weight;
};

int main(void)
{
    struct Head *head = malloc(sizeof(struct Head));
    struct Item *item = (struct Item *)head;
    item->head.kind = 1;
    item->weight = 5;
    return item->weight;
}
