/* expect: Outside at line 6 */
static int total(const int *numbers, int count)
{
    int sum = 0, i;
    for (i = 0; i < count; i++)
        sum += numbers[i];
    return sum;
}

int main(void)
{
    int single = 5;
    return total(&single, 2);
}
