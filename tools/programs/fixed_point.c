/* Numbers with 16 bits behind the point: sine and cosine by rotations (CORDIC), square roots, and a curve drawn with them. */
int putchar(int);

typedef int Fixed;

enum { ONE = 1 << 16, HALF_PI = 102944, STEPS = 16 };

static const Fixed angles[STEPS] = { 51472, 30386, 16055, 8150, 4091, 2047, 1024, 512, 256, 128, 64, 32, 16, 8, 4, 2 };

static void put_unsigned(unsigned n)
{
    if (n >= 10)
        put_unsigned(n / 10);
    putchar('0' + (int)(n % 10));
}

static void put_number(int n)
{
    unsigned size = (unsigned)n;
    if (n < 0) {
        putchar('-');
        size = 0u - size;
    }
    put_unsigned(size);
}

/* The product of 16.16 numbers, by halves, as no wider integers are at hand. */
static Fixed times(Fixed a, Fixed b)
{
    int is_negative = (a < 0) != (b < 0);
    unsigned x = a < 0 ? 0u - (unsigned)a : (unsigned)a, y = b < 0 ? 0u - (unsigned)b : (unsigned)b;
    unsigned high = (x >> 16) * (y >> 16), low = (x & 0xffff) * (y & 0xffff);
    unsigned middle = (x >> 16) * (y & 0xffff) + (x & 0xffff) * (y >> 16);
    unsigned result = (high << 16) + middle + (low >> 16);
    return is_negative ? (Fixed)(0u - result) : (Fixed)result;
}

static void sine_cosine(Fixed angle, Fixed *sine, Fixed *cosine)
{
    Fixed x = 39797, y = 0, turned;
    int i;
    for (i = 0; i < STEPS; i++) {
        if (angle >= 0) {
            turned = x - (y >> i);
            y += x >> i;
            angle -= angles[i];
        } else {
            turned = x + (y >> i);
            y -= x >> i;
            angle += angles[i];
        }
        x = turned;
    }
    *sine = y;
    *cosine = x;
}

static Fixed root(Fixed a)
{
    Fixed low = 0, high = a > ONE ? a : ONE;
    while (high - low > 1) {
        Fixed middle = low + (high - low) / 2;
        if (times(middle, middle) <= a)
            low = middle;
        else
            high = middle;
    }
    return low;
}

static void print(Fixed a)
{
    unsigned part = a < 0 ? 0u - (unsigned)a : (unsigned)a;
    int i;
    if (a < 0)
        putchar('-');
    put_unsigned(part >> 16);
    putchar('.');
    for (i = 0; i < 3; i++) {
        part = (part & 0xffff) * 10;
        putchar('0' + (int)(part >> 16));
    }
}

int main(void)
{
    Fixed sine, cosine, worst = 0;
    int i, k;
    for (i = -6; i <= 6; i++) {
        sine_cosine(HALF_PI / 6 * i, &sine, &cosine);
        print(sine);
        putchar(' ');
        for (k = (sine * 12 >> 16) + 14; k > 0; k--)
            putchar(' ');
        putchar('*');
        putchar('\n');
        k = times(sine, sine) + times(cosine, cosine) - ONE;
        if (k < 0)
            k = -k;
        if (k > worst)
            worst = k;
    }
    for (i = 1; i <= 100; i *= 3) {
        print(root(i * ONE));
        putchar('\n');
    }
    put_number(worst);
    putchar('\n');
    return worst > 20;
}
