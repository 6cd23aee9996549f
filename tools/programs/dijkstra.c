/* Shortest ways in a graph of adjacency lists, with a heap of places whose positions are known, and the way itself. */
void *malloc(unsigned);
void free(void *);
int putchar(int);

enum { PLACES = 30, FAR = 0x7fffffff };

struct Edge {
    int to, length;
    struct Edge *next;
};

struct Place {
    struct Edge *edges;
    int distance, before, position;
};

static struct Place places[PLACES];
static int heap[PLACES], heaped;

static void put_unsigned(unsigned n)
{
    if (n >= 10)
        put_unsigned(n / 10);
    putchar('0' + (int)(n % 10));
}

static void connect(int from, int to, int length)
{
    struct Edge *edge = malloc(sizeof(struct Edge));
    edge->to = to;
    edge->length = length;
    edge->next = places[from].edges;
    places[from].edges = edge;
}

static void put_at(int at, int place)
{
    heap[at] = place;
    places[place].position = at;
}

static void rise(int place)
{
    int at = places[place].position;
    while (at > 0 && places[heap[(at - 1) / 2]].distance > places[place].distance) {
        put_at(at, heap[(at - 1) / 2]);
        at = (at - 1) / 2;
    }
    put_at(at, place);
}

static int nearest(void)
{
    int first = heap[0], last = heap[--heaped], at = 0, child;
    while ((child = 2 * at + 1) < heaped) {
        if (child + 1 < heaped && places[heap[child + 1]].distance < places[heap[child]].distance)
            child++;
        if (places[heap[child]].distance >= places[last].distance)
            break;
        put_at(at, heap[child]);
        at = child;
    }
    put_at(at, last);
    places[first].position = -1;
    return first;
}

static void search(int start)
{
    int i;
    for (i = 0; i < PLACES; i++) {
        places[i].distance = FAR;
        places[i].before = -1;
        put_at(heaped++, i);
    }
    places[start].distance = 0;
    rise(start);
    while (heaped > 0 && places[heap[0]].distance < FAR) {
        int at = nearest();
        struct Edge *edge;
        for (edge = places[at].edges; edge; edge = edge->next) {
            int distance = places[at].distance + edge->length;
            if (distance < places[edge->to].distance) {
                places[edge->to].distance = distance;
                places[edge->to].before = at;
                rise(edge->to);
            }
        }
    }
}

static void print_way(int to)
{
    if (places[to].before >= 0) {
        print_way(places[to].before);
        putchar('-');
    }
    put_unsigned(to);
}

int main(void)
{
    int i, far = 0;
    for (i = 0; i < PLACES - 1; i++) {
        connect(i, (i + 1) % PLACES, 5 + i % 3);
        connect(i, i * 7 % (PLACES - 1), 9 + i % 4);
        connect(i, (i * i + 3) % (PLACES - 1), 11);
    }
    search(0);
    for (i = 0; i < PLACES; i++)
        if (places[i].distance > places[far].distance)
            far = i;
    print_way(far);
    putchar('\n');
    for (i = 0; i < PLACES; i++)
        while (places[i].edges) {
            struct Edge *edge = places[i].edges;
            places[i].edges = edge->next;
            free(edge);
        }
    return places[far].distance;
}
