/* expect: Division at line 7 */
int putchar(int);

static unsigned greatest_common(unsigned a, unsigned b)
{
    while (a != b) {
        unsigned rest = a % b;
        a = b;
        b = rest;
    }
    return a;
}

int main(void)
{
    putchar('g');
    return greatest_common(36, 24);
}
