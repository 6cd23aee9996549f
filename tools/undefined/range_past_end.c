/* expect: Range at line 10 */
void *malloc(unsigned);

int main(void)
{
    int *numbers = malloc(4 * sizeof(int)), i, sum = 0;
    for (i = 0; i < 4; i++)
        numbers[i] = i;
    for (i = 0; i < 8; i += 3)
        sum += *(numbers + i);
    return sum;
}
