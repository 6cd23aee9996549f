/* expect: Shift at line 8 */
int putchar(int);

int main(void)
{
    int value = 256, by;
    for (by = 2; by > -2; by--)
        putchar('A' + (value >> by) % 26);
    return 0;
}
