/* expect: Outside at line 12 */
void *calloc(unsigned, unsigned);

struct Cell {
    int value, used;
};

int main(void)
{
    struct Cell *cells = calloc(3, sizeof(struct Cell));
    int at = 0;
    while (at < 8 && !cells[at].used)
        at++;
    return at;
}
