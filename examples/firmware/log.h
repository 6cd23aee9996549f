/* A log of sensors: what its three files share. */
#ifndef LOG_H
#define LOG_H

#include <stdbool.h>
#include <stdint.h>

/* What a channel measured at a tick. */
struct Sample {
    uint16_t tick;
    uint8_t channel;
    int16_t value;
};

enum Alarm { QUIET, LOW, HIGH };

/* A channel: its name, the values between which it is quiet, and by how much a value has to come back before an alarm ends. */
struct Channel {
    const char *name;
    int16_t low, high, margin;
    enum Alarm alarm;
    uint16_t count;
    int16_t least, most;
    int32_t sum;
};

enum { CHANNELS = 3, NO_CHANNEL = CHANNELS };

extern struct Channel channels[CHANNELS];

uint8_t channel_of(char letter);
bool take(struct Channel *channel, int16_t value);
int16_t mean_of(const struct Channel *channel);

/* The ring keeps the last samples. */
void ring_put(const struct Sample *sample);
bool ring_get(struct Sample *sample);
unsigned ring_lost(void);

#endif
