/* ctype.h for layc, for ASCII: isalnum, isalpha, iscntrl, isdigit, isgraph, islower, isprint, ispunct, isspace, isupper, isxdigit, tolower and toupper.

   Those that are one comparison are macros, which read their argument once and have no address. The others are functions of each file that includes
   this one. Each takes a byte or EOF, and a test gives 0 or 1. */
#ifndef LAYC_CTYPE_H
#define LAYC_CTYPE_H

#define isdigit(byte) ((unsigned)(byte) - '0' < 10u)
#define isupper(byte) ((unsigned)(byte) - 'A' < 26u)
#define islower(byte) ((unsigned)(byte) - 'a' < 26u)
#define isalpha(byte) (((unsigned)(byte) | 32u) - 'a' < 26u)
#define isgraph(byte) ((unsigned)(byte) - '!' < 94u)
#define isprint(byte) ((unsigned)(byte) - ' ' < 95u)

static int isalnum(int byte)
{
    return isalpha(byte) || isdigit(byte);
}

static int iscntrl(int byte)
{
    return (unsigned)byte < 32u || byte == 127;
}

static int ispunct(int byte)
{
    return isgraph(byte) && !isalpha(byte) && !isdigit(byte);
}

static int isspace(int byte)
{
    return byte == ' ' || (unsigned)byte - '\t' < 5u;
}

static int isxdigit(int byte)
{
    return isdigit(byte) || ((unsigned)byte | 32u) - 'a' < 6u;
}

static int tolower(int byte)
{
    return isupper(byte) ? byte + 32 : byte;
}

static int toupper(int byte)
{
    return islower(byte) ? byte - 32 : byte;
}

#endif
