/* expect: Outside at line 12 */
void *malloc(unsigned);
void *memcpy(void *, const void *, unsigned);

int main(void)
{
    static const char from[5] = "abcd";
    unsigned size = 5;
    char *to = malloc(16);
    memcpy(to, from, size);
    size += 3;
    memcpy(to + 8, from, size);
    return to[8];
}
