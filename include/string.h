/* string.h for layc: memcpy, memmove, memset and memcmp, which are the language's library; memchr, strlen, strcpy, strncpy, strcat, strcmp, strncmp,
   strchr, strrchr and strstr as functions of each file that includes this one; size_t, NULL.

   The functions that search take `const char *` and give `char *`, as in C99: both are one type here. Not here: strncat, strspn, strcspn, strpbrk;
   strtok, whose state would be one for each file; strerror, strcoll, strxfrm. */
#ifndef LAYC_STRING_H
#define LAYC_STRING_H

#include <stddef.h>

void *memcpy(void *to, const void *from, unsigned count);
void *memmove(void *to, const void *from, unsigned count);
void *memset(void *to, int byte, unsigned count);
int memcmp(const void *left, const void *right, unsigned count);

static void *memchr(const void *bytes, int byte, size_t count)
{
    const unsigned char *at = bytes;
    for (; count > 0; count--, at++)
        if (*at == (unsigned char)byte)
            return (void *)at;
    return NULL;
}

static size_t strlen(const char *text)
{
    const char *end = text;
    while (*end)
        end++;
    return end - text;
}

static char *strcpy(char *to, const char *from)
{
    return memcpy(to, from, strlen(from) + 1);
}

static char *strncpy(char *to, const char *from, size_t count)
{
    size_t at = 0;
    for (; at < count && from[at]; at++)
        to[at] = from[at];
    for (; at < count; at++)
        to[at] = 0;
    return to;
}

static char *strcat(char *to, const char *from)
{
    strcpy(to + strlen(to), from);
    return to;
}

static int strcmp(const char *left, const char *right)
{
    for (; *left && *left == *right; left++)
        right++;
    return (unsigned char)*left - (unsigned char)*right;
}

static int strncmp(const char *left, const char *right, size_t count)
{
    for (; count > 0; count--, left++, right++)
        if (*left != *right || !*left)
            return (unsigned char)*left - (unsigned char)*right;
    return 0;
}

static char *strchr(const char *text, int byte)
{
    for (; *text != (char)byte; text++)
        if (!*text)
            return NULL;
    return (char *)text;
}

static char *strrchr(const char *text, int byte)
{
    const char *end = text + strlen(text) + 1;
    while (end > text)
        if (*--end == (char)byte)
            return (char *)end;
    return NULL;
}

static char *strstr(const char *text, const char *part)
{
    for (; strncmp(text, part, strlen(part)) != 0; text++)
        if (!*text)
            return NULL;
    return (char *)text;
}

#endif
