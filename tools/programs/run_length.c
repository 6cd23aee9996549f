/* Run-length coding of the input: a count and a byte for a run, a count above 127 for bytes that differ; then it is decoded again. */
void *malloc(unsigned);
int memcmp(const void *, const void *, unsigned);
void free(void *);
int putchar(int);
int getchar(void);

enum { MOST = 1000, LONGEST = 100 };

struct Bytes {
    unsigned char *at;
    int length;
};

static void put_unsigned(unsigned n)
{
    if (n >= 10)
        put_unsigned(n / 10);
    putchar('0' + (int)(n % 10));
}

static void add(struct Bytes *bytes, int byte)
{
    bytes->at[bytes->length++] = byte;
}

static int run_at(const struct Bytes *text, int at)
{
    int length = 1;
    while (length < LONGEST && at + length < text->length && text->at[at + length] == text->at[at])
        length++;
    return length;
}

static void encode(const struct Bytes *text, struct Bytes *code)
{
    int at = 0, run, begin;
    while (at < text->length) {
        run = run_at(text, at);
        if (run >= 3) {
            add(code, run);
            add(code, text->at[at]);
            at += run;
            continue;
        }
        begin = at;
        while (at < text->length && at - begin < LONGEST && run_at(text, at) < 3)
            at++;
        add(code, 128 + at - begin);
        while (begin < at)
            add(code, text->at[begin++]);
    }
}

static void decode(const struct Bytes *code, struct Bytes *text)
{
    const unsigned char *at = code->at, *end = code->at + code->length;
    while (at < end) {
        int count = *at++;
        if (count < 128) {
            while (count-- > 0)
                add(text, *at);
            at++;
        } else {
            while (count-- > 128)
                add(text, *at++);
        }
    }
}

static void make(struct Bytes *bytes, int room)
{
    bytes->at = malloc(room);
    bytes->length = 0;
}

int main(void)
{
    struct Bytes text, code, again;
    int c, same, i;
    make(&text, MOST);
    make(&code, 2 * MOST);
    make(&again, MOST);
    while ((c = getchar()) != -1 && text.length < MOST)
        add(&text, c);
    encode(&text, &code);
    for (i = 0; i < code.length; i++) {
        put_unsigned(code.at[i]);
        putchar(i % 16 == 15 || i + 1 == code.length ? '\n' : ' ');
    }
    decode(&code, &again);
    same = text.length == again.length && memcmp(text.at, again.at, text.length) == 0;
    free(text.at);
    free(again.at);
    free(code.at);
    return same ? code.length * 100 / (text.length + 1) : 255;
}
