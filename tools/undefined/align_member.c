/* expect: Align at line 13 */
void *calloc(unsigned, unsigned);

struct Record {
    char kind;
    int value;
};

int main(void)
{
    char *bytes = calloc(32, 1);
    struct Record *record = (struct Record *)(bytes + 2);
    return record->value;
}
