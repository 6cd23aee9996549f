/* expect: TwoBlocks at line 7 */
void *malloc(unsigned);

int main(void)
{
    char *first = malloc(8), *second = malloc(8);
    int is_first = first < second;
    return is_first;
}
