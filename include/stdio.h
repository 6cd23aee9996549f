/* stdio.h for layc: putchar and getchar, which are the language's library; puts as a function of each file that includes this one; EOF, size_t, NULL.

   Not here: files and streams; printf and scanf with their like, which take any number of arguments. */
#ifndef LAYC_STDIO_H
#define LAYC_STDIO_H

#include <stddef.h>

#define EOF (-1)

int putchar(int byte);
int getchar(void);

static int puts(const char *text)
{
    while (*text)
        putchar(*text++);
    return putchar('\n');
}

#endif
