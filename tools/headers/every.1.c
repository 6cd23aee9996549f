/* Every header of include/, twice, and what they declare on several values. By a compiler's own headers the program writes the same. */
#include <assert.h>
#include <ctype.h>
#include <limits.h>
#include <stdbool.h>
#include <stddef.h>
#include <stdint.h>
#include <stdio.h>
#include <stdlib.h>
#include <string.h>
#include "shared.h"
#include <assert.h>
#include <ctype.h>
#include <limits.h>
#include <stdbool.h>
#include <stddef.h>
#include <stdint.h>
#include <stdio.h>
#include <stdlib.h>
#include <string.h>

static int (*nothing)(int) = NULL;
static const char *const texts[] = { "", "a", "ab", "abc", "abd", "b", "aab", "caab", "aaab", " -17x", "\t+42", "2147483647", "\xe9t\xe9" };
enum { TEXTS = sizeof texts / sizeof texts[0] };

void show(const char *name, int value)
{
    unsigned left = value < 0 ? -(unsigned)value : (unsigned)value, place = 1;
    while (*name)
        putchar(*name++);
    putchar('=');
    if (value < 0)
        putchar('-');
    while (left / place >= 10)
        place *= 10;
    for (; place > 0; place /= 10)
        putchar('0' + left / place % 10);
    putchar('\n');
}

static int sign_of(int value)
{
    return value < 0 ? -1 : value > 0;
}

/* Where a found byte stands in a text, or -1. */
static int place_of(const char *found, const char *text)
{
    return found == NULL ? -1 : found - text;
}

static void show_bytes(void)
{
    int byte;
    for (byte = EOF; byte < 256; byte++) {
        int kinds = !!isalnum(byte) | !!isalpha(byte) << 1 | !!iscntrl(byte) << 2 | !!isdigit(byte) << 3 | !!isgraph(byte) << 4 | !!islower(byte) << 5;
        kinds |= !!isprint(byte) << 6 | !!ispunct(byte) << 7 | !!isspace(byte) << 8 | !!isupper(byte) << 9 | !!isxdigit(byte) << 10;
        show("byte", byte);
        show("kinds", kinds);
        show("lower", tolower(byte));
        show("upper", toupper(byte));
    }
}

static void show_pair(const char *left, const char *right)
{
    char both[40];
    size_t count;
    show("strcmp", sign_of(strcmp(left, right)));
    show("strstr", place_of(strstr(left, right), left));
    for (count = 0; count < 5; count++) {
        memset(both, '.', sizeof both);
        show("strncmp", sign_of(strncmp(left, right, count)));
        show("strncpy", place_of(strncpy(both, right, count), both));
        show("memcmp", sign_of(memcmp(both, "ab.....", 7)));
    }
    strcpy(both, left);
    puts(strcat(both, right));
}

static void show_text(const char *text)
{
    int byte, at;
    show("strlen", (int)strlen(text));
    show("atoi", atoi(text));
    for (byte = 'a'; byte <= 'c'; byte++) {
        show("strchr", place_of(strchr(text, byte), text));
        show("strrchr", place_of(strrchr(text, byte), text));
        show("memchr", place_of(memchr(text, byte, strlen(text)), text));
    }
    show("end", place_of(strchr(text, 0), text));
    show("last", place_of(strrchr(text, 256 + 0xe9), text));
    for (at = 0; at < TEXTS; at++)
        show_pair(text, texts[at]);
}

int main(void)
{
    Record records[3] = { { 1, -2, true }, { 255, 32767, false }, { 0, INT16_MIN, true } };
    unsigned char *bytes = calloc(4, 2);
    int at;
    assert(nothing == NULL && bytes != NULL);
    memmove(memcpy(bytes, "abcdefgh", 8), bytes + 1, 7);
    for (at = 0; at < TEXTS; at++)
        show_text(texts[at]);
    show_bytes();
    show_limits();
    show("abs", abs(-5) + abs(7));
    show("labs", (int)(labs(-50000l) - labs(INT_MIN + 1l)));
    show("bytes", bytes[0] * 256 + bytes[7]);
    free(bytes);
    show("hash", hash_of(records, 3));
    exit(records[1].is_third ? EXIT_FAILURE : EXIT_SUCCESS);
}
