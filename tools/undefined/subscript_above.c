/* expect: Subscript at line 6 */
int main(void)
{
    int numbers[4] = { 1, 2, 3, 4 }, sum = 0, i;
    for (i = 0; i <= 4; i++)
        sum += numbers[i];
    return sum;
}
