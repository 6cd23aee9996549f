/* expect: Empty at line 9 */
int putchar(int);

int main(void)
{
    int sum, i;
    for (i = 1; i < 4; i++)
        putchar('0' + i);
    if (sum > 3)
        return 1;
    return 0;
}
