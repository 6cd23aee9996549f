/* expect: Free at line 8 */
void free(void *);

static char *name = "name";

int main(void)
{
    free(name);
    return 0;
}
