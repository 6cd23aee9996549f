/* expect: Subscript at line 13 */
int putchar(int);

struct Stack {
    int height;
    int values[3];
};

static struct Stack stack;

static void push(int value)
{
    stack.values[stack.height++] = value;
}

int main(void)
{
    int i;
    for (i = 0; i < 4; i++) {
        putchar('0' + i);
        push(i);
    }
    return 0;
}
