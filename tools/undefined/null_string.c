/* expect: Null at line 6 */
int putchar(int);

static void put_text(const char *text)
{
    while (*text)
        putchar(*text++);
}

int main(void)
{
    static const char *const words[3] = { "one ", "two " };
    int i;
    for (i = 0; i < 3; i++)
        put_text(words[i]);
    return 0;
}
