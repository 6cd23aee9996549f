/* expect: Outside at line 7 */
int putchar(int);

static int length_of(const char *text)
{
    int length = 0;
    while (text[length++])
        ;
    return length;
}

int main(void)
{
    static char full[4] = "four";
    putchar('0' + length_of("four"));
    return length_of(full);
}
