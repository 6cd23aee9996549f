/* stdlib.h for layc: malloc, calloc, free and exit, which are the language's library; abs, labs and atoi as functions of each file that includes this
   one; size_t, NULL, EXIT_SUCCESS, EXIT_FAILURE.

   A malloc never gives null: want of room ends the program. Not here: realloc, which does not know how long the old block was; rand and srand, whose
   state would be one for each file; div and ldiv, which give structures; strtol and its like, qsort, bsearch, abort, atexit, getenv, system. */
#ifndef LAYC_STDLIB_H
#define LAYC_STDLIB_H

#include <stddef.h>

#define EXIT_SUCCESS 0
#define EXIT_FAILURE 1

void *malloc(unsigned size);
void *calloc(unsigned count, unsigned size);
void free(void *block);
void exit(int status);

static int abs(int number)
{
    return number < 0 ? -number : number;
}

static long labs(long number)
{
    return number < 0 ? -number : number;
}

/* A number that passes an int keeps its low 32 bits. */
static int atoi(const char *text)
{
    int number = 0, sign = 1;
    while (*text == ' ' || *text >= '\t' && *text <= '\r')
        text++;
    if (*text == '-' || *text == '+')
        sign = *text++ == '-' ? -1 : 1;
    while (*text >= '0' && *text <= '9')
        number = number * 10 + (*text++ - '0');
    return sign * number;
}

#endif
