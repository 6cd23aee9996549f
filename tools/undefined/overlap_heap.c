/* expect: Overlap at line 8 */
void *malloc(unsigned);
void *memcpy(void *, const void *, unsigned);
void *memset(void *, int, unsigned);

static void erase(int *numbers, int at, int count)
{
    memcpy(numbers + at, numbers + at + 1, (count - at - 1) * sizeof(int));
}

int main(void)
{
    int *numbers = malloc(6 * sizeof(int));
    memset(numbers, 1, 6 * sizeof(int));
    erase(numbers, 5, 6);
    erase(numbers, 4, 6);
    erase(numbers, 1, 6);
    return 0;
}
