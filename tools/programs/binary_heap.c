/* A priority queue in an array: jobs with a priority and a number, the most urgent first and equal ones in their order. */
void *malloc(unsigned);
void *memcpy(void *, const void *, unsigned);
void free(void *);
int putchar(int);

struct Job {
    int priority, number;
};

struct Queue {
    struct Job *jobs;
    int length, room;
};

static void put_unsigned(unsigned n)
{
    if (n >= 10)
        put_unsigned(n / 10);
    putchar('0' + (int)(n % 10));
}

static int is_before(const struct Job *a, const struct Job *b)
{
    return a->priority != b->priority ? a->priority < b->priority : a->number < b->number;
}

static void swap(struct Job *a, struct Job *b)
{
    struct Job kept = *a;
    *a = *b;
    *b = kept;
}

static void push(struct Queue *queue, int priority, int number)
{
    int at;
    if (queue->length == queue->room) {
        struct Job *wider = malloc(2 * queue->room * sizeof(struct Job));
        memcpy(wider, queue->jobs, queue->length * sizeof(struct Job));
        free(queue->jobs);
        queue->jobs = wider;
        queue->room *= 2;
    }
    at = queue->length++;
    queue->jobs[at].priority = priority;
    queue->jobs[at].number = number;
    while (at > 0 && is_before(&queue->jobs[at], &queue->jobs[(at - 1) / 2])) {
        swap(&queue->jobs[at], &queue->jobs[(at - 1) / 2]);
        at = (at - 1) / 2;
    }
}

static void pop(struct Queue *queue, struct Job *first)
{
    int at = 0;
    *first = queue->jobs[0];
    queue->jobs[0] = queue->jobs[--queue->length];
    for (;;) {
        int least = at, child = 2 * at + 1;
        if (child < queue->length && is_before(&queue->jobs[child], &queue->jobs[least]))
            least = child;
        if (child + 1 < queue->length && is_before(&queue->jobs[child + 1], &queue->jobs[least]))
            least = child + 1;
        if (least == at)
            return;
        swap(&queue->jobs[at], &queue->jobs[least]);
        at = least;
    }
}

int main(void)
{
    struct Queue queue;
    struct Job job;
    int i, wrong = 0, last = -1;
    queue.room = 4;
    queue.length = 0;
    queue.jobs = malloc(queue.room * sizeof(struct Job));
    for (i = 0; i < 60; i++)
        push(&queue, i * 17 % 23, i);
    while (queue.length > 0) {
        pop(&queue, &job);
        wrong += job.priority < last;
        last = job.priority;
        put_unsigned(job.priority);
        putchar(':');
        put_unsigned(job.number);
        putchar(queue.length % 10 ? ' ' : '\n');
    }
    free(queue.jobs);
    return wrong;
}
