/* expect: Outside at line 9 */
void *malloc(unsigned);
void *memset(void *, int, unsigned);

int main(void)
{
    unsigned count = 10;
    short *numbers = malloc(count);
    memset(numbers, 0, count * sizeof(short));
    return numbers[0];
}
