/* expect: Empty at line 19 */
void *malloc(unsigned);

struct Node {
    int value;
    struct Node *next;
};

static struct Node *node_of(int value)
{
    struct Node *node = malloc(sizeof(struct Node));
    node->value = value;
    return node;
}

int main(void)
{
    struct Node *node = node_of(4);
    return node->next ? 1 : node->value;
}
