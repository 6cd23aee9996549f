/* expect: Dead at line 10 */
int main(void)
{
    int *kept, sum = 0;
    {
        int inner[2] = { 1, 2 };
        kept = inner;
        sum += kept[1];
    }
    sum += *kept;
    return sum;
}
