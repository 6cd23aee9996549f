/* A log of sensors. It reads one sample a line from the input, as `17 t 23`: a tick, the first letter of a channel, a value. Alarms are written as they
   come. A table of jobs says what is done every so many ticks: the samples that the ring kept are written, and a summary. */
#include <ctype.h>
#include <stdio.h>
#include "log.h"

struct Job {
    void (*act)(void);
    uint16_t every, next;
};

static uint16_t now;
static unsigned refused;

/* ---- output */

static void put_text(const char *text)
{
    while (*text)
        putchar(*text++);
}

static void put_number(int32_t number)
{
    uint32_t left = number < 0 ? -(uint32_t)number : (uint32_t)number, place = 1;
    if (number < 0)
        putchar('-');
    while (left / place >= 10)
        place *= 10;
    for (; place > 0; place /= 10)
        putchar('0' + left / place % 10);
}

static void put_field(const char *name, int32_t number)
{
    putchar(' ');
    put_text(name);
    putchar('=');
    put_number(number);
}

static void put_line_of(uint16_t tick, const char *name, const char *what)
{
    put_number(tick);
    putchar(' ');
    put_text(name);
    putchar(' ');
    put_text(what);
}

/* ---- input: one line at a time, whose end is the end of each field */

static int byte;

static void skip_blanks(void)
{
    while (byte == ' ' || byte == '\t')
        byte = getchar();
}

/* Reads a number with an optional sign, and says whether there is one that lies in the range. */
static bool read_number(int32_t least, int32_t most, int32_t *number)
{
    bool is_negative;
    skip_blanks();
    is_negative = byte == '-';
    if (is_negative)
        byte = getchar();
    if (!isdigit(byte))
        return false;
    for (*number = 0; isdigit(byte); byte = getchar())
        if (*number < 100000)
            *number = *number * 10 + (byte - '0');
    if (is_negative)
        *number = -*number;
    return *number >= least && *number <= most;
}

static bool read_sample(struct Sample *sample)
{
    int32_t tick, value;
    if (!read_number(now, 65535, &tick))
        return false;
    skip_blanks();
    sample->channel = isalpha(byte) ? channel_of(byte) : NO_CHANNEL;
    if (sample->channel == NO_CHANNEL)
        return false;
    byte = getchar();
    if (!read_number(-32768, 32767, &value))
        return false;
    skip_blanks();
    sample->tick = tick;
    sample->value = value;
    return byte == '\n' || byte == EOF;
}

/* ---- jobs */

static void write_samples(void)
{
    struct Sample sample;
    while (ring_get(&sample)) {
        put_line_of(sample.tick, channels[sample.channel].name, "");
        put_number(sample.value);
        putchar('\n');
    }
}

static void write_summary(void)
{
    uint8_t at;
    for (at = 0; at < CHANNELS; at++) {
        const struct Channel *channel = &channels[at];
        put_line_of(now, channel->name, "summary:");
        put_field("count", channel->count);
        put_field("least", channel->least);
        put_field("mean", mean_of(channel));
        put_field("most", channel->most);
        putchar('\n');
    }
}

static struct Job jobs[] = {
    { write_samples, 10, 10 },
    { write_summary, 40, 40 },
};

/* Does what is due up to the tick. */
static void run_jobs(uint16_t tick)
{
    unsigned at;
    while (now < tick) {
        now++;
        for (at = 0; at < sizeof jobs / sizeof jobs[0]; at++)
            if (jobs[at].next == now) {
                jobs[at].act();
                jobs[at].next += jobs[at].every;
            }
    }
}

static void log_sample(const struct Sample *sample)
{
    static const char *const texts[] = { "is quiet\n", "is low\n", "is high\n" };
    struct Channel *channel = &channels[sample->channel];
    if (take(channel, sample->value))
        put_line_of(sample->tick, channel->name, texts[channel->alarm]);
    ring_put(sample);
}

int main(void)
{
    struct Sample sample;
    for (byte = getchar(); byte != EOF; byte = getchar()) {
        if (read_sample(&sample)) {
            run_jobs(sample.tick);
            log_sample(&sample);
        } else {
            refused++;
        }
        while (byte != '\n' && byte != EOF)
            byte = getchar();
    }
    write_samples();
    write_summary();
    put_text("end:");
    put_field("lost", ring_lost());
    put_field("refused", refused);
    putchar('\n');
    return 0;
}
