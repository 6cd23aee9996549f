/* Checksums of a text: CRC-32 by a table, CRC-16, Adler-32, Fletcher-16, and a hash by shifts. */
int putchar(int);

struct Method {
    const char *name;
    unsigned (*of)(const char *, int);
};

static void put_text(const char *text)
{
    while (*text)
        putchar(*text++);
}
static void put_hex(unsigned n)
{
    int shift;
    for (shift = 28; shift >= 0; shift -= 4)
        putchar("0123456789abcdef"[n >> shift & 15]);
}

static unsigned crc32(const char *text, int length)
{
    static unsigned table[256];
    unsigned crc = 0xffffffff;
    int i, bit;
    if (table[1] == 0)
        for (i = 0; i < 256; i++) {
            table[i] = i;
            for (bit = 0; bit < 8; bit++)
                table[i] = table[i] >> 1 ^ (table[i] & 1 ? 0xedb88320 : 0);
        }
    while (length-- > 0)
        crc = crc >> 8 ^ table[(crc ^ *text++) & 255];
    return ~crc;
}

static unsigned crc16(const char *text, int length)
{
    unsigned short crc = 0xffff;
    int bit;
    while (length-- > 0) {
        crc ^= *text++ << 8;
        for (bit = 0; bit < 8; bit++)
            crc = crc & 0x8000 ? crc << 1 ^ 0x1021 : crc << 1;
    }
    return crc;
}

static unsigned adler32(const char *text, int length)
{
    unsigned a = 1, b = 0;
    while (length-- > 0) {
        a = (a + *text++) % 65521;
        b = (b + a) % 65521;
    }
    return b << 16 | a;
}

static unsigned fletcher16(const char *text, int length)
{
    unsigned a = 0, b = 0;
    while (length-- > 0) {
        a = (a + *text++) % 255;
        b = (b + a) % 255;
    }
    return b << 8 | a;
}

static unsigned one_at_a_time(const char *text, int length)
{
    unsigned hash = 0;
    while (length-- > 0) {
        hash += *text++;
        hash += hash << 10;
        hash ^= hash >> 6;
    }
    hash += hash << 3;
    hash ^= hash >> 11;
    return hash + (hash << 15);
}

static const struct Method methods[] = {
    { "crc32 ", crc32 }, { "crc16 ", crc16 }, { "adler32 ", adler32 }, { "fletcher16 ", fletcher16 }, { "one at a time ", one_at_a_time },
};

int main(void)
{
    static const char text[] = "123456789";
    unsigned i;
    for (i = 0; i < sizeof methods / sizeof *methods; i++) {
        put_text(methods[i].name);
        put_hex(methods[i].of(text, sizeof text - 1));
        putchar('\n');
    }
    return crc32(text, 9) == 0xcbf43926 && crc16(text, 9) == 0x29b1 && adler32("Wikipedia", 9) == 0x11e60398 ? 0 : 1;
}
