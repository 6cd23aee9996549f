/* expect: Shift at line 8 */
int main(void)
{
    unsigned char steps[3] = { 3, 5, 40 };
    unsigned set = 1;
    int i;
    for (i = 0; i < 3; i++)
        set <<= steps[i];
    return set;
}
