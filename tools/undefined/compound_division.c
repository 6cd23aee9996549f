/* expect: Division at line 9 */
int putchar(int);

int main(void)
{
    unsigned value = 1000, by = 3;
    while (value) {
        putchar('0' + (int)(value % 10));
        value /= by--;
    }
    return 0;
}
