/* Roman numerals: written by a table, read back by comparing neighbours; all numbers to 200 and some larger ones. */
int putchar(int);

struct Sign {
    int value;
    const char *text;
};

static const struct Sign signs[] = {
    { 1000, "M" }, { 900, "CM" }, { 500, "D" }, { 400, "CD" }, { 100, "C" }, { 90, "XC" },
    { 50, "L" }, { 40, "XL" }, { 10, "X" }, { 9, "IX" }, { 5, "V" }, { 4, "IV" }, { 1, "I" }, { 0, 0 },
};

static void write_number(int n, char *out)
{
    const struct Sign *sign;
    for (sign = signs; sign->text; sign++)
        while (n >= sign->value) {
            const char *text = sign->text;
            n -= sign->value;
            while (*text)
                *out++ = *text++;
        }
    *out = 0;
}

static int value_of(char letter)
{
    switch (letter) {
    case 'I': return 1;
    case 'V': return 5;
    case 'X': return 10;
    case 'L': return 50;
    case 'C': return 100;
    case 'D': return 500;
    case 'M': return 1000;
    }
    return 0;
}

static int read_number(const char *text)
{
    int sum = 0;
    for (; *text; text++) {
        int value = value_of(*text);
        sum += value < value_of(text[1]) ? -value : value;
    }
    return sum;
}

int main(void)
{
    static const int years[] = { 1444, 1789, 1969, 1999, 2026, 3888 };
    char text[16];
    unsigned i;
    int n, wrong = 0, k;
    for (n = 1; n <= 200; n++) {
        write_number(n, text);
        wrong += read_number(text) != n;
    }
    for (i = 0; i < sizeof years / sizeof years[0]; i++) {
        write_number(years[i], text);
        for (k = 0; text[k]; k++)
            putchar(text[k]);
        putchar('\n');
        wrong += read_number(text) != years[i];
    }
    return wrong;
}
