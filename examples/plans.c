/* Three records that may be laid out anew: one is peeled, one is split and one is reordered, by the plan that docs/REPORT.md shows. No record is laid out anew
   yet, so the program is compiled with `--plain`. It writes how far masses are from each other, how often names are looked up, and a box. */
void *malloc(unsigned);
int putchar(int);

/* peeled: its only pointer is of file scope, and each of its fields has loops of its own */
struct Mass {
	int place;
	int weight;
};

static struct Mass *masses;

/* split: `key` and `next` are read for each look-up, the rest once at the end */
struct Entry {
	int key;
	struct Entry *next;
	int found;
	int made;
};

/* reordered: `spare` is never read, and `width` is read most */
struct Box {
	char color;
	int spare;
	char border;
	short height;
	int width;
};

static void put_number(int n)
{
	if (n >= 10)
		put_number(n / 10);
	putchar('0' + n % 10);
}

static void put_line(int n)
{
	put_number(n);
	putchar('\n');
}

static int spread(int count)
{
	int i, j, sum = 0, weight = 0;

	masses = malloc(count * sizeof(struct Mass));
	for (i = 0; i < count; i++)
		masses[i].place = i * i;
	for (i = 0; i < count; i++)
		masses[i].weight = i % 3;
	for (i = 0; i < count; i++)
		for (j = 0; j < i; j++)
			sum += masses[i].place - masses[j].place;
	for (i = 0; i < count; i++)
		weight += masses[i].weight;
	return sum + weight;
}

static struct Entry *entry(int key, struct Entry *next, int made)
{
	struct Entry *e = malloc(sizeof(struct Entry));
	e->key = key;
	e->next = next;
	e->found = 0;
	e->made = made;
	return e;
}

static int look_up(int keys)
{
	struct Entry *first = 0, *e;
	int i, sum = 0;

	for (i = 0; i < keys; i++)
		first = entry(i * 7 % keys, first, i);
	for (i = 0; i < keys; i++)
		for (e = first; e; e = e->next)
			if (e->key == i)
				sum += i;
	first->found = sum;
	return first->found + first->made;
}

static int area(int steps)
{
	struct Box *box = malloc(sizeof(struct Box));
	int i, sum = 0;

	box->color = 1;
	box->spare = 0;
	box->border = 2;
	box->height = 3;
	box->width = 4;
	for (i = 0; i < steps; i++)
		sum += box->width * box->height + box->width;
	return sum + box->color + box->border;
}

int main(void)
{
	put_line(spread(20));
	put_line(look_up(15));
	put_line(area(10));
	return 0;
}
