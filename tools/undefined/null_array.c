/* expect: Null at line 6 */
static int sum_of(int (*numbers)[3])
{
    int i, sum = 0;
    for (i = 2; i >= 0; i--)
        sum += (*numbers)[i];
    return sum;
}

int main(void)
{
    int numbers[3] = { 1, 2, 3 };
    return sum_of(&numbers) - 6 + sum_of(0);
}
