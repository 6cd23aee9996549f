/* expect: Free at line 9 */
void *malloc(unsigned);
void free(void *);

int main(void)
{
    char *text = malloc(8);
    *text++ = 'x';
    free(text);
    return 0;
}
