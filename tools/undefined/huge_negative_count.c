/* expect: Huge at line 15 */
void *malloc(unsigned);

struct Node {
    struct Node *next;
    int value;
};

static int count = 3;

int main(void)
{
    struct Node *nodes;
    count -= 4;
    nodes = malloc(sizeof(struct Node) * count);
    return nodes == 0;
}
