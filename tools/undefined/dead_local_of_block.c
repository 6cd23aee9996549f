/* expect: Dead at line 7 */
int main(void)
{
    int *kept = 0, i, sum = 0;
    for (i = 0; i < 3; i++) {
        if (kept)
            sum += *kept;
        {
            int square = i * i;
            kept = &square;
            sum += *kept;
        }
    }
    return sum;
}
