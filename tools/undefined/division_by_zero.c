/* expect: Division at line 9 */
int putchar(int);

static int average(const int *numbers, int count)
{
    int i, sum = 0;
    for (i = 0; i < count; i++)
        sum += numbers[i];
    return sum / count;
}

int main(void)
{
    static const int numbers[3] = { 65, 66, 67 };
    putchar(average(numbers, 3));
    putchar(average(numbers, 0));
    return 0;
}
