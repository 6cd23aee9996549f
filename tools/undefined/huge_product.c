/* expect: Huge at line 11 */
void *calloc(unsigned, unsigned);

struct Pair {
    int first, second;
};

int main(void)
{
    unsigned count = 0x80000001;
    struct Pair *pairs = calloc(count, sizeof(struct Pair));
    return pairs == 0;
}
