/* expect: ReadOnly at line 6 */
int putchar(int);

static void capital(char *word)
{
    *word -= 'a' - 'A';
}

int main(void)
{
    char own[] = "own";
    char *lent = "lent";
    capital(own);
    putchar(own[0]);
    capital(lent);
    return 0;
}
