/* stddef.h for layc: size_t, ptrdiff_t, NULL.

   Not here: offsetof, since a pointer becomes no integer in this language; wchar_t. */
#ifndef LAYC_STDDEF_H
#define LAYC_STDDEF_H

typedef unsigned size_t;
typedef int ptrdiff_t;

#define NULL ((void *)0)

#endif
