/* expect: Range at line 12 */
void *malloc(unsigned);

int main(void)
{
    int *few = malloc(2 * sizeof(int[3])), y, sum = 0;
    int (*grid)[4][3];
    for (y = 0; y < 6; y++)
        few[y] = y;
    grid = (int (*)[4][3])few;
    for (y = 1; y < 4; y += 2)
        sum += (*grid)[y][0];
    return sum;
}
