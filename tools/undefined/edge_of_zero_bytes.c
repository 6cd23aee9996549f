/* expect: Edge at line 7 */
void *malloc(unsigned);

int main(void)
{
    char *none = malloc(0), *other = malloc(1);
    int same = none == other;
    return same;
}
