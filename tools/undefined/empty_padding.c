/* expect: Empty at line 14 */
int memcmp(const void *, const void *, unsigned);

struct Pair {
    char kind;
    int value;
};

int main(void)
{
    struct Pair a, b;
    a.kind = b.kind = 'x';
    a.value = b.value = 1;
    return memcmp(&a, &b, sizeof(struct Pair));
}
