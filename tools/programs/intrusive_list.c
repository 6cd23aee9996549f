/* Links inside records: one record hangs in two lists, and is found from a link by the distance of the member. */
void *malloc(unsigned);
void free(void *);
int putchar(int);

struct Link {
    struct Link *next, *before;
};

struct Person {
    const char *name;
    int age;
    struct Link by_age;
    struct Link by_name;
};

static struct Link ages, names;

static void put_text(const char *text)
{
    while (*text)
        putchar(*text++);
}
static void put_unsigned(unsigned n)
{
    if (n >= 10)
        put_unsigned(n / 10);
    putchar('0' + (int)(n % 10));
}

static void start(struct Link *list)
{
    list->next = list->before = list;
}

static void insert_before(struct Link *place, struct Link *link)
{
    link->next = place;
    link->before = place->before;
    place->before->next = link;
    place->before = link;
}

static void take_out(struct Link *link)
{
    link->next->before = link->before;
    link->before->next = link->next;
}

static struct Person *of_age_link(struct Link *link)
{
    static struct Person sample;
    return (struct Person *)((char *)link - ((char *)&sample.by_age - (char *)&sample));
}

static struct Person *of_name_link(struct Link *link)
{
    static struct Person sample;
    return (struct Person *)((char *)link - ((char *)&sample.by_name - (char *)&sample));
}

static int compare(const char *a, const char *b)
{
    for (; *a && *a == *b; a++)
        b++;
    return *a - *b;
}

static void add(const char *name, int age)
{
    struct Person *person = malloc(sizeof(struct Person));
    struct Link *place;
    person->name = name;
    person->age = age;
    for (place = ages.next; place != &ages && of_age_link(place)->age <= age; place = place->next)
        ;
    insert_before(place, &person->by_age);
    for (place = names.next; place != &names && compare(of_name_link(place)->name, name) < 0; place = place->next)
        ;
    insert_before(place, &person->by_name);
}

int main(void)
{
    struct Link *link, *next;
    int total = 0;
    start(&ages);
    start(&names);
    add("Maud", 41);
    add("Ada", 36);
    add("Kurt", 71);
    add("Grace", 85);
    add("Alan", 41);
    add("Emmy", 53);
    for (link = ages.next; link != &ages; link = next) {
        struct Person *person = of_age_link(link);
        next = link->next;
        put_text(person->name);
        putchar(' ');
        if (person->age == 41) {
            take_out(&person->by_age);
            take_out(&person->by_name);
            free(person);
        }
    }
    putchar('\n');
    for (link = names.next; link != &names; link = next) {
        struct Person *person = of_name_link(link);
        next = link->next;
        put_text(person->name);
        putchar(' ');
        put_unsigned(person->age);
        putchar('\n');
        total += person->age;
        free(person);
    }
    return total & 255;
}
