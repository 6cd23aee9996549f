/* expect: ReadOnly at line 8 */
void *memset(void *, int, unsigned);

static char *pattern = "........";

int main(void)
{
    memset(pattern, '#', 3);
    return *pattern;
}
