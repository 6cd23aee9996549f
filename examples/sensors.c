/* Three sensors put raw readings into a queue, and each is taken out, turned into a value by its sensor's function and printed, with a remark where the
   value is out of its sensor's range. */
void *malloc(unsigned);
void free(void *);
int putchar(int);

struct Sensor {
	const char *name, *unit;
	int (*value_of)(unsigned raw);
	int low, high;
};

struct Reading {
	const struct Sensor *sensor;
	unsigned short raw;
	unsigned char tick;
	struct Reading *next;
};

struct Queue {
	struct Reading *first, *last;
};

/* tenths of a degree, from steps of a 12-bit converter that begin at -50 degrees */
static int degrees(unsigned raw)
{
	return (int)(raw * 2000 / 4096) - 500;
}

static int percent(unsigned raw)
{
	return raw * 100 / 4095;
}

static int millivolts(unsigned raw)
{
	return raw * 5000 / 4096;
}

static const struct Sensor sensors[] = {
	{ "temperature", "tenths of a degree", degrees, -200, 600 },
	{ "humidity", "percent", percent, 10, 90 },
	{ "battery", "mV", millivolts, 3000, 4200 },
};

static struct Queue queue;

static void put(const struct Sensor *sensor, unsigned raw, int tick)
{
	struct Reading *reading = malloc(sizeof(struct Reading));
	reading->sensor = sensor;
	reading->raw = raw;
	reading->tick = tick;
	reading->next = 0;
	if (queue.first)
		queue.last->next = reading;
	else
		queue.first = reading;
	queue.last = reading;
}

static void put_text(const char *text)
{
	while (*text)
		putchar(*text++);
}

static void put_number(int n)
{
	if (n < 0) {
		putchar('-');
		n = -n;
	}
	if (n >= 10)
		put_number(n / 10);
	putchar('0' + n % 10);
}

/* 1 where the value of the reading is out of range, else 0 */
static int show(const struct Reading *reading)
{
	const struct Sensor *sensor = reading->sensor;
	int value = sensor->value_of(reading->raw), place = value < sensor->low ? -1 : value > sensor->high;
	put_number(reading->tick);
	put_text(" ");
	put_text(sensor->name);
	put_text(" ");
	put_number(value);
	put_text(" ");
	put_text(sensor->unit);
	switch (place) {
	case -1:
		put_text(", too low");
		break;
	case 1:
		put_text(", too high");
	}
	putchar('\n');
	return place != 0;
}

int main(void)
{
	static const unsigned short raw[][3] = { { 1480, 2000, 3300 }, { 1600, 3900, 3000 }, { 410, 2500, 2400 } };
	unsigned tick, i, alarms = 0;
	for (tick = 0; tick < sizeof raw / sizeof raw[0]; tick++)
		for (i = 0; i < 3; i++)
			put(&sensors[i], raw[tick][i], tick);
	while (queue.first) {
		struct Reading *reading = queue.first;
		queue.first = reading->next;
		alarms += show(reading);
		free(reading);
	}
	return alarms;
}
