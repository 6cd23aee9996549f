/* Six records, each of which has to lie as it is declared, for another reason: the report of `layc compile` names it, and docs/REPORT.md says what to do about
   it. The program reads readings, a line each, and writes how many there were of each channel, their sum, and a checksum. */
void *malloc(unsigned);
void *memset(void *, int, unsigned);
int getchar(void);
int putchar(int);

/* OBJT: the table is an array of them */
struct Channel {
	const char *name;
	int count;
	int sum;
};

static struct Channel channels[2] = { { "a" }, { "b" } };

/* CSTF: its bytes are added up */
struct Packet {
	unsigned short number;
	unsigned char channel;
	unsigned char value;
};

/* ATKN: the address of a field is handed on */
struct Parser {
	int last;
	int line;
};

/* MSET: it is filled */
struct Histogram {
	int low;
	int high;
};

/* COPY: it is assigned as a whole */
struct Extremes {
	int least;
	int greatest;
};

/* IND: a function that takes a pointer to it is handed on */
struct Writer {
	int column;
	int width;
};

static void put_byte(struct Writer *writer, int byte)
{
	putchar(byte);
	writer->column = byte == '\n' ? 0 : writer->column + 1;
}

static void put_text(struct Writer *writer, void (*put)(struct Writer *, int), const char *text)
{
	while (*text)
		put(writer, *text++);
}

static void put_number(struct Writer *writer, unsigned n)
{
	if (n >= 10)
		put_number(writer, n / 10);
	put_byte(writer, '0' + n % 10);
}

static void put_line(struct Writer *writer, const char *name, unsigned n)
{
	put_text(writer, put_byte, name);
	while (writer->column < writer->width)
		put_byte(writer, ' ');
	put_number(writer, n);
	put_byte(writer, '\n');
}

static unsigned checksum(const struct Packet *packet)
{
	const unsigned char *bytes = (const unsigned char *)packet;
	return bytes[0] + bytes[1] + bytes[2] + bytes[3];
}

static void next(int *last)
{
	*last = getchar();
}

/* the channel and the value of a line, as `b 17`; 0 at the end of the input */
static int read_packet(struct Parser *parser, struct Packet *packet)
{
	next(&parser->last);
	if (parser->last == -1)
		return 0;
	packet->channel = parser->last == 'b';
	packet->value = 0;
	next(&parser->last);
	for (next(&parser->last); parser->last >= '0' && parser->last <= '9'; next(&parser->last))
		packet->value = packet->value * 10 + (parser->last - '0');
	packet->number = parser->line++;
	return 1;
}

int main(void)
{
	struct Parser *parser = malloc(sizeof(struct Parser));
	struct Packet *packet = malloc(sizeof(struct Packet));
	struct Histogram *histogram = malloc(sizeof(struct Histogram));
	struct Extremes *now = malloc(sizeof(struct Extremes)), *before = malloc(sizeof(struct Extremes));
	struct Writer *writer = malloc(sizeof(struct Writer));
	unsigned sum = 0, changes = 0;
	int i;

	parser->line = 0;
	memset(histogram, 0, sizeof(struct Histogram));
	now->least = 255;
	now->greatest = 0;
	writer->column = 0;
	writer->width = 10;
	while (read_packet(parser, packet)) {
		struct Channel *channel = &channels[packet->channel];
		channel->count++;
		channel->sum += packet->value;
		sum += checksum(packet);
		if (packet->value < 128)
			histogram->low++;
		else
			histogram->high++;
		*before = *now;
		if (packet->value < now->least)
			now->least = packet->value;
		if (packet->value > now->greatest)
			now->greatest = packet->value;
		changes += before->least != now->least || before->greatest != now->greatest;
	}
	for (i = 0; i < 2; i++) {
		put_line(writer, channels[i].name, channels[i].count);
		put_line(writer, "  sum", channels[i].sum);
	}
	put_line(writer, "low", histogram->low);
	put_line(writer, "high", histogram->high);
	put_line(writer, "least", now->least);
	put_line(writer, "greatest", now->greatest);
	put_line(writer, "changes", changes);
	put_line(writer, "checksum", sum & 255);
	return 0;
}
