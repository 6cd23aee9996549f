/* A ring buffer between one that puts and one that takes, at unequal paces; what comes out must be what went in, and none is lost. */
int putchar(int);

enum { ROOM = 16 };

struct Ring {
    unsigned char bytes[ROOM];
    unsigned put, taken;
};

static unsigned held(const struct Ring *ring)
{
    return ring->put - ring->taken;
}

static int put(struct Ring *ring, unsigned char byte)
{
    if (held(ring) == ROOM)
        return 0;
    ring->bytes[ring->put++ % ROOM] = byte;
    return 1;
}

static int take(struct Ring *ring, unsigned char *byte)
{
    if (held(ring) == 0)
        return 0;
    *byte = ring->bytes[ring->taken++ % ROOM];
    return 1;
}

int main(void)
{
    static const char text[] = "A ring buffer holds what is put into it until it is taken, and begins again where it ends.\n";
    struct Ring ring;
    const char *next = text;
    unsigned char byte;
    int turn, full = 0, empty = 0;
    ring.put = ring.taken = 0xfffffff0;
    for (turn = 0; *next || held(&ring); turn++) {
        int puts = turn * 7 % 9, takes = turn * 5 % 8;
        while (puts-- > 0 && *next) {
            if (put(&ring, *next))
                next++;
            else
                full++;
        }
        while (takes-- > 0) {
            if (take(&ring, &byte))
                putchar(byte);
            else
                empty++;
        }
    }
    return full * 16 + empty;
}
