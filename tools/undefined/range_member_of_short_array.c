/* expect: Range at line 14 */
void *malloc(unsigned);

struct Cell {
    int value, used;
};

int main(void)
{
    struct Cell (*cells)[4] = malloc(2 * sizeof(struct Cell));
    int i;
    (*cells)[0].used = (*cells)[1].used = 1;
    for (i = 0; i < 4; i++)
        if (!*&(*cells)[i].used)
            break;
    return i;
}
