/* expect: Range at line 9 */
int main(void)
{
    int numbers[3] = { 1, 2, 3 };
    int *place = numbers, *end = numbers + 3, sum = 0;
    while (place < end)
        sum += *place++;
    end = 0;
    return place < end;
}
