/* expect: Range at line 9 */
void *malloc(unsigned);

int main(void)
{
    int *numbers = malloc(4 * sizeof(int)), at = 3, sum = 0;
    for (; at >= 0; at--)
        numbers[at] = at;
    sum += numbers[at];
    return sum;
}
