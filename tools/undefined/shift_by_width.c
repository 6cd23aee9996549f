/* expect: Shift at line 6 */
int putchar(int);

static unsigned mask(int bits)
{
    return (1u << bits) - 1;
}

int main(void)
{
    int bits;
    for (bits = 8; bits <= 32; bits += 8)
        putchar(mask(bits) == 255 ? 'y' : 'n');
    return 0;
}
