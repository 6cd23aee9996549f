/* Square matrices by rows of pointers: product, transpose, power, and a determinant by expansion. */
void *malloc(unsigned);
void free(void *);
int putchar(int);

struct Matrix {
    int size;
    int **rows;
};

static void put_unsigned(unsigned n)
{
    if (n >= 10)
        put_unsigned(n / 10);
    putchar('0' + (int)(n % 10));
}

static void put_number(int n)
{
    unsigned size = (unsigned)n;
    if (n < 0) {
        putchar('-');
        size = 0u - size;
    }
    put_unsigned(size);
}

static struct Matrix *matrix(int size)
{
    struct Matrix *m = malloc(sizeof(struct Matrix));
    int i, j;
    m->size = size;
    m->rows = malloc(size * sizeof(int *));
    for (i = 0; i < size; i++) {
        m->rows[i] = malloc(size * sizeof(int));
        for (j = 0; j < size; j++)
            m->rows[i][j] = i == j;
    }
    return m;
}

static void release(struct Matrix *m)
{
    int i;
    for (i = 0; i < m->size; i++)
        free(m->rows[i]);
    free(m->rows);
    free(m);
}

static struct Matrix *product(const struct Matrix *a, const struct Matrix *b)
{
    struct Matrix *c = matrix(a->size);
    int i, j, k;
    for (i = 0; i < a->size; i++)
        for (j = 0; j < a->size; j++) {
            int sum = 0;
            for (k = 0; k < a->size; k++)
                sum += a->rows[i][k] * b->rows[k][j];
            c->rows[i][j] = sum;
        }
    return c;
}

static struct Matrix *power(const struct Matrix *a, unsigned n)
{
    struct Matrix *result = matrix(a->size), *square = product(result, a), *old;
    for (; n; n >>= 1) {
        if (n & 1) {
            old = result;
            result = product(old, square);
            release(old);
        }
        old = square;
        square = product(old, old);
        release(old);
    }
    release(square);
    return result;
}

static void transpose(struct Matrix *m)
{
    int i, j;
    for (i = 0; i < m->size; i++)
        for (j = 0; j < i; j++) {
            int kept = m->rows[i][j];
            m->rows[i][j] = m->rows[j][i];
            m->rows[j][i] = kept;
        }
}

/* Of the columns that `used` leaves, with the rows from one on. */
static int determinant(const struct Matrix *m, int row, unsigned used)
{
    int column, sign = 1, sum = 0;
    if (row == m->size)
        return 1;
    for (column = 0; column < m->size; column++)
        if (!(used >> column & 1)) {
            sum += sign * m->rows[row][column] * determinant(m, row + 1, used | 1u << column);
            sign = -sign;
        }
    return sum;
}

static void print(const struct Matrix *m)
{
    int i, j;
    for (i = 0; i < m->size; i++)
        for (j = 0; j < m->size; j++) {
            put_number(m->rows[i][j]);
            putchar(j + 1 < m->size ? ' ' : '\n');
        }
}

int main(void)
{
    struct Matrix *a = matrix(4), *b;
    int i, j, value;
    for (i = 0; i < 4; i++)
        for (j = 0; j < 4; j++)
            a->rows[i][j] = (i * 5 + j * 3) % 7 - 2;
    print(a);
    b = power(a, 5);
    print(b);
    transpose(b);
    print(b);
    value = determinant(a, 0, 0);
    put_number(value);
    putchar('\n');
    put_number(determinant(b, 0, 0) == value * value * value * value * value);
    putchar('\n');
    release(a);
    release(b);
    return value & 127;
}
