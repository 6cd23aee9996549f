/* expect: Dead at line 10 */
void *malloc(unsigned);
void free(void *);

int main(void)
{
    int *first = malloc(sizeof(int)), *second = malloc(sizeof(int)), same;
    *first = *second = 1;
    free(first);
    same = first == second;
    return same;
}
