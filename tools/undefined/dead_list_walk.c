/* expect: Dead at line 22 */
void *malloc(unsigned);
void free(void *);
int putchar(int);

struct Node {
    int value;
    struct Node *next;
};

int main(void)
{
    struct Node *list = 0, *node;
    int i;
    for (i = 0; i < 3; i++) {
        node = malloc(sizeof(struct Node));
        node->value = i;
        node->next = list;
        list = node;
    }
    putchar('0' + list->value);
    for (node = list; node; node = node->next)
        free(node);
    return 0;
}
