/* expect: Align at line 11 */
void *calloc(unsigned, unsigned);

int main(void)
{
    static int number = 3;
    char *bytes = calloc(16, 1);
    int **place = (int **)(bytes + 4);
    *place = &number;
    place = (int **)(bytes + 9);
    *place = &number;
    return 0;
}
