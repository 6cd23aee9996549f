/* What programs of csmith stand on, within this project's C: the types of given widths, the functions whose value is defined for all operands, the
   checksum, and its printing by putchar. It has csmith's meanings as they are with NO_LONGLONG. */

int putchar(int);

typedef signed char int8_t;
typedef unsigned char uint8_t;
typedef short int16_t;
typedef unsigned short uint16_t;
typedef int int32_t;
typedef unsigned uint32_t;

/* Neither sums nor products of narrow numbers leave `int`. */
#define SIGNED_NARROW_SUMS(T) \
    static T safe_unary_minus_func_##T##_s(T a) { return -a; } \
    static T safe_add_func_##T##_s_s(T a, T b) { return a + b; } \
    static T safe_sub_func_##T##_s_s(T a, T b) { return a - b; } \
    static T safe_mul_func_##T##_s_s(T a, T b) { return a * b; }

/* The left operand stands for a sum, difference or product that leaves the type. */
#define SIGNED_WIDE_SUMS(T, LEAST, GREATEST) \
    static T safe_unary_minus_func_##T##_s(T a) { return a == LEAST ? a : -a; } \
    static T safe_add_func_##T##_s_s(T a, T b) { \
        return a > 0 && b > 0 && a > GREATEST - b || a < 0 && b < 0 && a < LEAST - b ? a : a + b; \
    } \
    static T safe_sub_func_##T##_s_s(T a, T b) { \
        return ((a ^ b) & (((a ^ ((a ^ b) & ~GREATEST)) - b) ^ b)) < 0 ? a : a - b; \
    } \
    static T safe_mul_func_##T##_s_s(T a, T b) { \
        return a > 0 && b > 0 && a > GREATEST / b || a > 0 && b <= 0 && b < LEAST / a || a <= 0 && b > 0 && a < LEAST / b \
            || a <= 0 && b <= 0 && a != 0 && b < GREATEST / a ? a : a * b; \
    }

#define SIGNED(T, LEAST, GREATEST) \
    static T safe_mod_func_##T##_s_s(T a, T b) { return b == 0 || a == LEAST && b == -1 ? a : a % b; } \
    static T safe_div_func_##T##_s_s(T a, T b) { return b == 0 || a == LEAST && b == -1 ? a : a / b; } \
    static T safe_lshift_func_##T##_s_s(T a, int n) { return a < 0 || n < 0 || n >= 32 || a > GREATEST >> n ? a : a << n; } \
    static T safe_lshift_func_##T##_s_u(T a, unsigned n) { return a < 0 || n >= 32 || a > GREATEST >> n ? a : a << n; } \
    static T safe_rshift_func_##T##_s_s(T a, int n) { return a < 0 || n < 0 || n >= 32 ? a : a >> n; } \
    static T safe_rshift_func_##T##_s_u(T a, unsigned n) { return a < 0 || n >= 32 ? a : a >> n; }

#define UNSIGNED(T, GREATEST) \
    static T safe_unary_minus_func_##T##_u(T a) { return -a; } \
    static T safe_add_func_##T##_u_u(T a, T b) { return a + b; } \
    static T safe_sub_func_##T##_u_u(T a, T b) { return a - b; } \
    static T safe_mul_func_##T##_u_u(T a, T b) { return (unsigned)a * (unsigned)b; } \
    static T safe_mod_func_##T##_u_u(T a, T b) { return b == 0 ? a : a % b; } \
    static T safe_div_func_##T##_u_u(T a, T b) { return b == 0 ? a : a / b; } \
    static T safe_lshift_func_##T##_u_s(T a, int n) { return n < 0 || n >= 32 || a > GREATEST >> n ? a : a << n; } \
    static T safe_lshift_func_##T##_u_u(T a, unsigned n) { return n >= 32 || a > GREATEST >> n ? a : a << n; } \
    static T safe_rshift_func_##T##_u_s(T a, int n) { return n < 0 || n >= 32 ? a : a >> n; } \
    static T safe_rshift_func_##T##_u_u(T a, unsigned n) { return n >= 32 ? a : a >> n; }

SIGNED_NARROW_SUMS(int8_t)
SIGNED_NARROW_SUMS(int16_t)
SIGNED_WIDE_SUMS(int32_t, (-2147483647 - 1), 2147483647)
SIGNED(int8_t, (-128), 127)
SIGNED(int16_t, (-32768), 32767)
SIGNED(int32_t, (-2147483647 - 1), 2147483647)
UNSIGNED(uint8_t, 255)
UNSIGNED(uint16_t, 65535)
UNSIGNED(uint32_t, 4294967295u)

static uint32_t crc32_tab[256];
static uint32_t crc32_context = 0xFFFFFFFFu;

static void crc32_gentab(void)
{
    uint32_t crc;
    int i, j;
    for (i = 0; i < 256; i++) {
        crc = i;
        for (j = 8; j > 0; j--) {
            if (crc & 1)
                crc = crc >> 1 ^ 0xEDB88320u;
            else
                crc >>= 1;
        }
        crc32_tab[i] = crc;
    }
}

static void crc32_byte(uint8_t b)
{
    crc32_context = crc32_context >> 8 & 0x00FFFFFF ^ crc32_tab[(crc32_context ^ b) & 0xFF];
}

/* The checksum of a value goes on from that of those before; its name serves csmith's own printing alone. */
static void transparent_crc(uint32_t value, char *name, int flag)
{
    int i;
    for (i = 0; i < 32; i += 8)
        crc32_byte(value >> i & 0xFF);
}

static void print_text(char *text)
{
    for (; *text; text++)
        putchar(*text);
}

static void platform_main_begin(void)
{
}

static void platform_main_end(uint32_t crc, int flag)
{
    int shift, begun = 0;
    print_text("checksum = ");
    for (shift = 28; shift >= 0; shift -= 4) {
        begun = begun || crc >> shift || shift == 0;
        if (begun)
            putchar("0123456789ABCDEF"[crc >> shift & 15]);
    }
    putchar('\n');
}

#define printf(...) ((void)0)
