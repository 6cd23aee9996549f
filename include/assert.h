/* assert.h for layc: assert, which does nothing where NDEBUG is defined as this file is included.

   An assertion that fails writes FILE:LINE and a line feed to the output, the only stream that there is, and ends the program with status 134, as a
   shell reports abort. The text of the expression is not kept, since each would be a string in the firmware. */
#ifndef LAYC_ASSERT_H
#define LAYC_ASSERT_H

int putchar(int byte);
void exit(int status);

static void layc_assertion_fails(const char *file, int line)
{
    int place = 1;
    while (*file)
        putchar(*file++);
    putchar(':');
    while (line / place >= 10)
        place *= 10;
    for (; place > 0; place /= 10)
        putchar('0' + line / place % 10);
    putchar('\n');
    exit(134);
}

#endif

#undef assert
#ifdef NDEBUG
#define assert(holds) ((void)0)
#else
#define assert(holds) ((holds) ? (void)0 : layc_assertion_fails(__FILE__, __LINE__))
#endif
