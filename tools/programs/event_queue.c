/* A simulation by events: customers come to two counters, wait, are served and leave; the events lie in a list by their time. */
void *malloc(unsigned);
void free(void *);
int putchar(int);

struct World;
struct Event;

typedef void (*Action)(struct World *, struct Event *);

struct Event {
    int time, customer, counter;
    Action action;
    struct Event *next;
};

struct World {
    struct Event *events;
    int now, seen, served;
    int is_busy[2], waiting[30], first, last;
    int total_wait, came[30];
    unsigned seed;
};

static void put_unsigned(unsigned n)
{
    if (n >= 10)
        put_unsigned(n / 10);
    putchar('0' + (int)(n % 10));
}

static int chance(struct World *world, int n)
{
    world->seed = world->seed * 1103515245u + 12345u;
    return (world->seed >> 16) % n;
}

static void schedule(struct World *world, int delay, Action action, int customer, int counter)
{
    struct Event *event = malloc(sizeof(struct Event)), **place = &world->events;
    event->time = world->now + delay;
    event->action = action;
    event->customer = customer;
    event->counter = counter;
    while (*place && (*place)->time <= event->time)
        place = &(*place)->next;
    event->next = *place;
    *place = event;
}

static void tell(struct World *world, char what, int customer)
{
    put_unsigned(world->now);
    putchar(what);
    put_unsigned(customer);
    putchar(' ');
}

static void leave(struct World *world, struct Event *event);

static void serve(struct World *world, int customer, int counter)
{
    tell(world, '>', customer);
    world->is_busy[counter] = 1;
    world->total_wait += world->now - world->came[customer];
    schedule(world, 4 + chance(world, 9), leave, customer, counter);
}

static void leave(struct World *world, struct Event *event)
{
    tell(world, '-', event->customer);
    world->is_busy[event->counter] = 0;
    world->served++;
    if (world->first < world->last)
        serve(world, world->waiting[world->first++], event->counter);
}

static void arrive(struct World *world, struct Event *event)
{
    int counter = !world->is_busy[0] ? 0 : 1;
    tell(world, '+', event->customer);
    world->came[event->customer] = world->now;
    if (!world->is_busy[counter])
        serve(world, event->customer, counter);
    else
        world->waiting[world->last++] = event->customer;
    if (++world->seen < 25)
        schedule(world, 1 + chance(world, 6), arrive, event->customer + 1, 0);
}

int main(void)
{
    struct World world = { 0 };
    world.seed = 2;
    schedule(&world, 0, arrive, 0, 0);
    while (world.events) {
        struct Event *event = world.events;
        world.events = event->next;
        world.now = event->time;
        event->action(&world, event);
        free(event);
    }
    putchar('\n');
    put_unsigned(world.served);
    putchar('\n');
    return world.total_wait & 255;
}
