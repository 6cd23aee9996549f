/* expect: Pointer at line 8 */
int memcmp(const void *, const void *, unsigned);

int main(void)
{
    static int number = 1;
    int *first = &number, *second = &number;
    return memcmp(&first, &second, sizeof first);
}
