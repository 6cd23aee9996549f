/* expect: Free at line 13 */
void free(void *);

struct Table {
    int *cells;
};

static int builtin[4];
static struct Table table = { builtin };

int main(void)
{
    free(table.cells);
    return 0;
}
