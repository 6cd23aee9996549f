/* The ring: the last samples that were put and not yet taken. A sample that comes when it is full takes the place of the oldest. */
#include <assert.h>
#include "log.h"

enum { PLACES = 8 };

static struct Sample places[PLACES];
static unsigned first, filled, lost;

void ring_put(const struct Sample *sample)
{
    places[(first + filled) % PLACES] = *sample;
    if (filled < PLACES) {
        filled++;
    } else {
        first = (first + 1) % PLACES;
        lost++;
    }
    assert(filled <= PLACES);
}

bool ring_get(struct Sample *sample)
{
    if (filled == 0)
        return false;
    *sample = places[first];
    first = (first + 1) % PLACES;
    filled--;
    return true;
}

unsigned ring_lost(void)
{
    return lost;
}
