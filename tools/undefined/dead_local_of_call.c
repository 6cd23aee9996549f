/* expect: Dead at line 18 */
int putchar(int);

static int *digits_of(int n)
{
    int digits[4], i;
    int *begin = digits;
    for (i = 0; i < 4; i++) {
        digits[i] = n % 10;
        n /= 10;
    }
    return begin;
}

int main(void)
{
    int *digits = digits_of(1234);
    putchar('0' + digits[2]);
    return 0;
}
