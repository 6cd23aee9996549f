/* expect: Null at line 13 */
int putchar(int);

struct Node {
    int value;
    struct Node *next;
};

static int sum_of(const struct Node *list)
{
    int sum = 0;
    do {
        sum += list->value;
        list = list->next;
    } while (list);
    return sum;
}

int main(void)
{
    struct Node one = { 65, 0 };
    putchar(sum_of(&one));
    return sum_of(0);
}
