/* expect: Range at line 7 */
int main(void)
{
    int numbers[3] = { 1, 2, 3 }, sum = 0;
    int *place = &numbers[2];
    while (sum < 100)
        sum += *place--;
    return sum;
}
