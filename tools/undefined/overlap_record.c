/* expect: Overlap at line 13 */
void *calloc(unsigned, unsigned);

struct Block {
    int words[32];
};

int main(void)
{
    int *words = calloc(64, sizeof(int));
    struct Block *first = (struct Block *)words, *second = (struct Block *)(words + 4);
    *first = *first;
    *second = *first;
    return words[4];
}
