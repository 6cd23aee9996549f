/* expect: Outside at line 10 */
void *malloc(unsigned);

static char *copy_of(const char *text, int length)
{
    char *copy = malloc(length);
    int i;
    for (i = 0; i < length; i++)
        copy[i] = text[i];
    copy[length] = 0;
    return copy;
}

int main(void)
{
    return *copy_of("", 0);
}
