/* Sparse matrices by rows of linked cells: transposition, product, and the powers of a path's matrix. */
void *malloc(unsigned);
void free(void *);
int putchar(int);

enum { SIZE = 8 };

struct Cell {
    int column, value;
    struct Cell *next;
};

struct Sparse {
    struct Cell *rows[SIZE];
};

static void put_unsigned(unsigned n)
{
    if (n >= 10)
        put_unsigned(n / 10);
    putchar('0' + (int)(n % 10));
}

static void put_number(int n)
{
    unsigned size = (unsigned)n;
    if (n < 0) {
        putchar('-');
        size = 0u - size;
    }
    put_unsigned(size);
}

static void add_to(struct Sparse *matrix, int row, int column, int value)
{
    struct Cell **place = &matrix->rows[row], *cell;
    while (*place && (*place)->column < column)
        place = &(*place)->next;
    if (*place && (*place)->column == column) {
        (*place)->value += value;
        if ((*place)->value == 0) {
            cell = *place;
            *place = cell->next;
            free(cell);
        }
    } else if (value != 0) {
        cell = malloc(sizeof(struct Cell));
        cell->column = column;
        cell->value = value;
        cell->next = *place;
        *place = cell;
    }
}

static struct Sparse *empty(void)
{
    struct Sparse *matrix = malloc(sizeof(struct Sparse));
    int i;
    for (i = 0; i < SIZE; i++)
        matrix->rows[i] = 0;
    return matrix;
}

static struct Sparse *transposed(const struct Sparse *a)
{
    struct Sparse *result = empty();
    const struct Cell *cell;
    int i;
    for (i = 0; i < SIZE; i++)
        for (cell = a->rows[i]; cell; cell = cell->next)
            add_to(result, cell->column, i, cell->value);
    return result;
}

static struct Sparse *product(const struct Sparse *a, const struct Sparse *b)
{
    struct Sparse *result = empty();
    const struct Cell *left, *right;
    int i;
    for (i = 0; i < SIZE; i++)
        for (left = a->rows[i]; left; left = left->next)
            for (right = b->rows[left->column]; right; right = right->next)
                add_to(result, i, right->column, left->value * right->value);
    return result;
}

static int print(const struct Sparse *a)
{
    int i, count = 0;
    for (i = 0; i < SIZE; i++) {
        const struct Cell *cell;
        for (cell = a->rows[i]; cell; cell = cell->next) {
            put_number(i);
            putchar(',');
            put_number(cell->column);
            putchar('=');
            put_number(cell->value);
            putchar(' ');
            count++;
        }
    }
    putchar('\n');
    return count;
}

static void release(struct Sparse *a)
{
    int i;
    for (i = 0; i < SIZE; i++)
        while (a->rows[i]) {
            struct Cell *cell = a->rows[i];
            a->rows[i] = cell->next;
            free(cell);
        }
    free(a);
}

int main(void)
{
    struct Sparse *path = empty(), *back, *both;
    int i, count;
    for (i = 0; i + 1 < SIZE; i++)
        add_to(path, i, i + 1, i % 2 ? -1 : 1);
    add_to(path, 7, 0, 2);
    add_to(path, 3, 3, 5);
    add_to(path, 3, 3, -5);
    count = print(path);
    back = transposed(path);
    count = count * 16 + print(back);
    both = product(path, path);
    print(both);
    release(path);
    path = product(both, back);
    print(path);
    release(path);
    release(both);
    release(back);
    return count;
}
