/* What both files of the program share; it includes headers that they include too. */
#ifndef SHARED_H
#define SHARED_H

#include <stdbool.h>
#include <stddef.h>
#include <stdint.h>

typedef struct {
    uint8_t first;
    int16_t second;
    bool is_third;
} Record;

void show(const char *name, int value);
void show_limits(void);
int hash_of(const Record *record, size_t count);

#endif
