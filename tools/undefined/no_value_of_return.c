/* expect: NoValue at line 11 */
static int checked(int n)
{
    if (n < 0)
        return 0;
    n++;
}

static int passed_on(int n)
{
    if (checked(n) > 0)
        return 1;
    return 0;
}

int main(void)
{
    return passed_on(-1) + passed_on(1);
}
