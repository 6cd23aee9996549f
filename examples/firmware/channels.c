/* The channels: what each has measured so far, and whether it alarms. */
#include "log.h"

struct Channel channels[CHANNELS] = {
    { "temperature", -20, 60, 3, QUIET, 0, 0, 0, 0 },
    { "humidity", 10, 90, 5, QUIET, 0, 0, 0, 0 },
    { "voltage", 3000, 3600, 50, QUIET, 0, 0, 0, 0 },
};

uint8_t channel_of(char letter)
{
    uint8_t at = 0;
    while (at < CHANNELS && channels[at].name[0] != letter)
        at++;
    return at;
}

/* Whether the alarm of a channel that was in this state stands at the value. */
static enum Alarm alarm_at(const struct Channel *channel, int16_t value)
{
    int16_t back = channel->alarm == QUIET ? 0 : channel->margin;
    if (value < channel->low + (channel->alarm == LOW ? back : 0))
        return LOW;
    if (value > channel->high - (channel->alarm == HIGH ? back : 0))
        return HIGH;
    return QUIET;
}

/* Takes a value in, and says whether the alarm changed. */
bool take(struct Channel *channel, int16_t value)
{
    enum Alarm before = channel->alarm;
    if (channel->count == 0 || value < channel->least)
        channel->least = value;
    if (channel->count == 0 || value > channel->most)
        channel->most = value;
    channel->count++;
    channel->sum += value;
    channel->alarm = alarm_at(channel, value);
    return channel->alarm != before;
}

/* The mean, towards zero. */
int16_t mean_of(const struct Channel *channel)
{
    return channel->count == 0 ? 0 : channel->sum / channel->count;
}
