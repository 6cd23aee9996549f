/* expect: Align at line 8 */
void *malloc(unsigned);

int main(void)
{
    char *bytes = malloc(9);
    short *half = (short *)(bytes + 3);
    *half = 258;
    return bytes[3];
}
