/* Pools of equal pieces: a piece that is given back is the next one given out, and pools of several sizes serve requests. */
void *malloc(unsigned);
void free(void *);
int putchar(int);

enum { POOLS = 4, PIECES = 8 };

struct Piece {
    struct Piece *next;
    int *bytes;
};

struct Pool {
    unsigned size;
    struct Piece *idle;
    int made, given;
};

static struct Pool pools[POOLS] = { { 8, 0, 0, 0 }, { 16, 0, 0, 0 }, { 32, 0, 0, 0 }, { 64, 0, 0, 0 } };

static void put_unsigned(unsigned n)
{
    if (n >= 10)
        put_unsigned(n / 10);
    putchar('0' + (int)(n % 10));
}

static void refill(struct Pool *pool)
{
    int i;
    for (i = 0; i < PIECES; i++) {
        struct Piece *piece = malloc(sizeof(struct Piece));
        piece->bytes = malloc(pool->size);
        piece->next = pool->idle;
        pool->idle = piece;
    }
    pool->made += PIECES;
}

static struct Pool *pool_for(unsigned size)
{
    struct Pool *pool = pools;
    while (pool < pools + POOLS && pool->size < size)
        pool++;
    return pool < pools + POOLS ? pool : 0;
}

static struct Piece *obtain(unsigned size)
{
    struct Pool *pool = pool_for(size);
    struct Piece *piece;
    if (!pool)
        return 0;
    if (!pool->idle)
        refill(pool);
    piece = pool->idle;
    pool->idle = piece->next;
    piece->next = 0;
    pool->given++;
    return piece;
}

static void give_back(struct Piece *piece, unsigned size)
{
    struct Pool *pool = pool_for(size);
    piece->next = pool->idle;
    pool->idle = piece;
    pool->given--;
}

int main(void)
{
    struct Piece *held[40], *piece;
    unsigned sizes[40], seed = 7;
    int i, turn, failed = 0;
    for (i = 0; i < 40; i++)
        held[i] = 0;
    for (turn = 0; turn < 400; turn++) {
        seed = seed * 1664525u + 1013904223u;
        i = seed >> 24 & 31;
        if (held[i]) {
            failed += held[i]->bytes[0] != i;
            give_back(held[i], sizes[i]);
            held[i] = 0;
        } else {
            sizes[i] = 4 + (seed >> 16 & 63);
            held[i] = obtain(sizes[i]);
            if (held[i])
                held[i]->bytes[0] = i;
        }
    }
    for (i = 0; i < 40; i++)
        if (held[i])
            give_back(held[i], sizes[i]);
    for (i = 0; i < POOLS; i++) {
        put_unsigned(pools[i].size);
        putchar(':');
        put_unsigned(pools[i].made);
        putchar(pools[i].given ? '!' : '\n');
        while ((piece = pools[i].idle) != 0) {
            pools[i].idle = piece->next;
            free(piece->bytes);
            free(piece);
        }
    }
    return failed;
}
