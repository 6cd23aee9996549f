/* expect: Dead at line 12 */
void *malloc(unsigned);
void *memcpy(void *, const void *, unsigned);
void free(void *);

int main(void)
{
    int *old = malloc(4 * sizeof(int)), *wider = malloc(8 * sizeof(int)), i;
    for (i = 0; i < 4; i++)
        old[i] = i;
    free(old);
    memcpy(wider, old, 4 * sizeof(int));
    return wider[3];
}
