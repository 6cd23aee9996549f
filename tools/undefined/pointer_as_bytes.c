/* expect: Pointer at line 9 */
int main(void)
{
    static int number = 1;
    int *pointer = &number;
    unsigned char *bytes = (unsigned char *)&pointer;
    unsigned sum = 0, i;
    for (i = 0; i < sizeof pointer; i++)
        sum += bytes[i];
    return sum == 0;
}
