/* stdbool.h for layc: bool, true, false.

   The language has no _Bool, so a bool is an int: every number but 0 is true, and stays that number. C99 would make it 1. So write `if (b)`, and not
   `if (b == true)`, and `!!x` where 0 or 1 is wanted. In a structure a bool takes four bytes; `unsigned char` takes one. */
#ifndef LAYC_STDBOOL_H
#define LAYC_STDBOOL_H

#define bool int
#define true 1
#define false 0
#define __bool_true_false_are_defined 1

#endif
