/* expect: TwoBlocks at line 6 */
int main(void)
{
    int numbers[3] = { 1, 2, 3 }, others[3] = { 4, 5, 6 }, sum = 0;
    const int *at = numbers, *end = others + 3;
    while (at < end)
        sum += *at++;
    return sum;
}
