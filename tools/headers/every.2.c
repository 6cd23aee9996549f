/* The second file: limits, and a structure without a tag from a header that both files include. */
#define NDEBUG
#include <assert.h>
#include <limits.h>
#include <string.h>
#include "shared.h"

static void show_wide(const char *name, unsigned value)
{
    show(name, (int)(value >> 16));
    show(name, (int)(value & 0xffff));
}

void show_limits(void)
{
    assert(false);
    show("CHAR_BIT", CHAR_BIT);
    show("CHAR", CHAR_MAX - CHAR_MIN);
    show("SCHAR", SCHAR_MIN + SCHAR_MAX * 1000);
    show("UCHAR", UCHAR_MAX);
    show("SHRT", SHRT_MIN + SHRT_MAX * 2);
    show("USHRT", USHRT_MAX);
    show_wide("INT_MIN", INT_MIN);
    show_wide("INT_MAX", INT_MAX);
    show_wide("UINT_MAX", UINT_MAX);
    show_wide("LONG_MIN", LONG_MIN);
    show_wide("LONG_MAX", LONG_MAX);
    show_wide("ULONG_MAX", ULONG_MAX);
    show("INT8", INT8_MIN + INT8_MAX * 1000 + INT_LEAST8_MIN + INT_LEAST8_MAX * 1000);
    show("UINT8", UINT8_MAX + UINT_LEAST8_MAX);
    show("INT16", INT16_MIN + INT16_MAX * 2 + INT_LEAST16_MIN + INT_LEAST16_MAX * 2);
    show("UINT16", UINT16_MAX + UINT_LEAST16_MAX);
    show_wide("INT32_MIN", INT32_MIN);
    show_wide("INT32_MAX", INT32_MAX);
    show_wide("UINT32_MAX", UINT32_MAX);
    show_wide("INT_LEAST32_MIN", INT_LEAST32_MIN);
    show_wide("UINT_LEAST32_MAX", UINT_LEAST32_MAX);
    show_wide("SIZE_MAX", SIZE_MAX);
    show_wide("PTRDIFF_MIN", PTRDIFF_MIN);
    show_wide("PTRDIFF_MAX", PTRDIFF_MAX);
    show("constants", INT8_C(1) + UINT8_C(2) + INT16_C(3) + UINT16_C(4) + INT32_C(5));
    show_wide("UINT32_C", UINT32_C(4000000000));
    show("sizes", sizeof(int8_t) + 10 * sizeof(int16_t) + 100 * sizeof(int32_t) + 1000 * sizeof(uint_least16_t));
    show("unsigned", (uint8_t)-1 + (uint16_t)-1);
    show("signed", (int8_t)-1 + (int16_t)-1 + (int_least8_t)-1 + (int_fast8_t)-1);
}

int hash_of(const Record *record, size_t count)
{
    uint32_t hash = strlen("hash");
    for (; count > 0; count--, record++)
        hash = hash * 31 + record->first * 7 + (uint16_t)record->second * 3 + (record->is_third ? 1 : 0);
    return hash % 1000000;
}
