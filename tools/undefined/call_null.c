/* expect: Call at line 17 */
int putchar(int);

typedef int (*Command)(int);

static int twice(int n)
{
    return 2 * n;
}

static Command commands[3] = { twice, twice };

int main(void)
{
    int i;
    for (i = 0; i < 3; i++)
        putchar(commands[i](33));
    return 0;
}
