/* A graph as a matrix and as lists: breadth first with a queue, depth first with and without recursion, and its parts. */
void *malloc(unsigned);
void *calloc(unsigned, unsigned);
void free(void *);
int putchar(int);

struct Graph {
    int size;
    char *joined;
};

struct Queue {
    int *places;
    int first, last;
};

static void put_unsigned(unsigned n)
{
    if (n >= 10)
        put_unsigned(n / 10);
    putchar('0' + (int)(n % 10));
}

static void join(struct Graph *graph, int a, int b)
{
    graph->joined[a * graph->size + b] = 1;
    graph->joined[b * graph->size + a] = 1;
}

static int breadth_first(const struct Graph *graph, int start, int *distance)
{
    struct Queue queue;
    int i, reached;
    for (i = 0; i < graph->size; i++)
        distance[i] = -1;
    queue.places = malloc(graph->size * sizeof(int));
    queue.first = queue.last = 0;
    queue.places[queue.last++] = start;
    distance[start] = 0;
    while (queue.first < queue.last) {
        int at = queue.places[queue.first++];
        for (i = 0; i < graph->size; i++)
            if (graph->joined[at * graph->size + i] && distance[i] < 0) {
                distance[i] = distance[at] + 1;
                queue.places[queue.last++] = i;
            }
    }
    reached = queue.last;
    free(queue.places);
    return reached;
}

static void visit(const struct Graph *graph, int at, char *seen, int **order)
{
    int i;
    seen[at] = 1;
    *(*order)++ = at;
    for (i = 0; i < graph->size; i++)
        if (graph->joined[at * graph->size + i] && !seen[i])
            visit(graph, i, seen, order);
}

static int visit_by_stack(const struct Graph *graph, int start, int *order)
{
    int *stack = malloc(graph->size * graph->size * sizeof(int)), height = 0, count = 0, i;
    char *seen = calloc(graph->size, 1);
    stack[height++] = start;
    while (height > 0) {
        int at = stack[--height];
        if (seen[at])
            continue;
        seen[at] = 1;
        order[count++] = at;
        for (i = graph->size; i-- > 0;)
            if (graph->joined[at * graph->size + i] && !seen[i])
                stack[height++] = i;
    }
    free(stack);
    free(seen);
    return count;
}

int main(void)
{
    struct Graph graph;
    int distance[24], order[24], other[24], *end = order, i, count, wrong = 0, parts = 0;
    char *seen;
    graph.size = 24;
    graph.joined = calloc(graph.size * graph.size, 1);
    for (i = 0; i < 20; i++) {
        join(&graph, i, i * 3 % 20);
        join(&graph, i, (i + 6) % 20);
    }
    join(&graph, 21, 22);
    seen = calloc(graph.size, 1);
    visit(&graph, 0, seen, &end);
    count = visit_by_stack(&graph, 0, other);
    wrong += count != end - order;
    for (i = 0; i < count; i++)
        wrong += order[i] != other[i];
    wrong += breadth_first(&graph, 0, distance) != count;
    for (i = 0; i < count; i++) {
        put_unsigned(order[i]);
        putchar(':');
        put_unsigned(distance[order[i]]);
        putchar(i + 1 < count ? ' ' : '\n');
    }
    for (i = 0; i < graph.size; i++) {
        if (!seen[i])
            visit(&graph, i, seen, &end);
        parts += i == 0 || !seen[i - 1];
    }
    wrong += end - order != graph.size;
    free(seen);
    free(graph.joined);
    return wrong * 16 + parts;
}
