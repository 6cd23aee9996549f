/* expect: Null at line 8 */
void *memset(void *, int, unsigned);

static int *buffer;

int main(void)
{
    memset(buffer, 0, 4);
    return 0;
}
