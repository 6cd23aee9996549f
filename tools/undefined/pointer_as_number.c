/* expect: Pointer at line 7 */
int main(void)
{
    static int number = 1;
    int *pointer = &number, bits;
    int **place = &pointer;
    bits = *(int *)place;
    return bits == 0;
}
