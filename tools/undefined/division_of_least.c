/* expect: Division at line 6 */
int putchar(int);

static int turned(int value, int by)
{
    return value / by;
}

int main(void)
{
    putchar('0' + turned(-7, -1));
    return turned(-2147483647 - 1, -1);
}
