/* Base64: encodes the lines of the input, and decodes each again to compare. */
int memcmp(const void *, const void *, unsigned);
int putchar(int);
int getchar(void);

enum { LONGEST = 90 };

static const char digits[] = "ABCDEFGHIJKLMNOPQRSTUVWXYZabcdefghijklmnopqrstuvwxyz0123456789+/";

static int encode(const unsigned char *bytes, int length, char *text)
{
    int i, k, size = 0;
    for (i = 0; i < length; i += 3) {
        unsigned group = bytes[i] << 16;
        if (i + 1 < length)
            group |= bytes[i + 1] << 8;
        if (i + 2 < length)
            group |= bytes[i + 2];
        for (k = 0; k < 4; k++)
            text[size++] = i + k <= length ? digits[group >> (18 - 6 * k) & 63] : '=';
    }
    return size;
}

static int digit_of(char c)
{
    int i;
    for (i = 0; i < 64; i++)
        if (digits[i] == c)
            return i;
    return -1;
}

static int decode(const char *text, int size, unsigned char *bytes)
{
    unsigned bits = 0;
    int held = 0, length = 0, i;
    for (i = 0; i < size && text[i] != '='; i++) {
        bits = bits << 6 | digit_of(text[i]);
        held += 6;
        if (held >= 8) {
            held -= 8;
            bytes[length++] = bits >> held & 255;
        }
    }
    return length;
}

int main(void)
{
    unsigned char line[LONGEST], again[LONGEST + 2];
    char text[LONGEST / 3 * 4];
    int c, length = 0, wrong = 0, i, size;
    while ((c = getchar()) != -1) {
        if (c != '\n' && length < LONGEST) {
            line[length++] = c;
            continue;
        }
        size = encode(line, length, text);
        for (i = 0; i < size; i++)
            putchar(text[i]);
        putchar('\n');
        if (decode(text, size, again) != length || memcmp(line, again, length) != 0)
            wrong++;
        length = 0;
    }
    return wrong;
}
