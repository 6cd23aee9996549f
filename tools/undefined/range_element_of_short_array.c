/* expect: Range at line 12 */
void *malloc(unsigned);

int main(void)
{
    int *few = malloc(3 * sizeof(int)), i, sum = 0;
    int (*numbers)[8];
    for (i = 0; i < 3; i++)
        few[i] = i;
    numbers = (int (*)[8])few;
    for (i = 0; i < 8; i += 2)
        sum += (*numbers)[i];
    return sum;
}
