/* A scheduler of tasks that yield: each is a function with its own state that says what it waits for; priorities age. */
int putchar(int);

enum { TASKS = 5 };
enum Answer { READY, SLEEPS, ENDS };

struct Task;

typedef enum Answer (*Step)(struct Task *);

struct Task {
    char name;
    Step step;
    int priority, credit;
    int state, count;
    int wakes;
    int is_over;
};

static int now;
static int box = -1;

static enum Answer counts_down(struct Task *task)
{
    putchar('0' + task->count);
    return --task->count < 0 ? ENDS : READY;
}

static enum Answer ticks(struct Task *task)
{
    if (task->count-- == 0)
        return ENDS;
    task->wakes = now + 3;
    return SLEEPS;
}

static enum Answer produces(struct Task *task)
{
    if (box >= 0) {
        task->wakes = now + 1;
        return SLEEPS;
    }
    box = 'A' + task->state++;
    return task->state == task->count ? ENDS : READY;
}

static enum Answer consumes(struct Task *task)
{
    if (box >= 0) {
        putchar(box);
        box = -1;
        if (++task->state == task->count)
            return ENDS;
    }
    task->wakes = now + 2;
    return SLEEPS;
}

static struct Task tasks[TASKS] = {
    { 'd', counts_down, 2, 0, 0, 6, 0, 0 },
    { 't', ticks, 5, 0, 0, 8, 0, 0 },
    { 'p', produces, 3, 0, 0, 7, 0, 0 },
    { 'c', consumes, 3, 0, 0, 7, 0, 0 },
    { 'e', counts_down, 1, 0, 0, 4, 0, 0 },
};

/* The task that is awake and has the greatest credit; all that wait gain as much as their priority. */
static struct Task *chosen(void)
{
    struct Task *best = 0, *task;
    for (task = tasks; task < tasks + TASKS; task++)
        if (!task->is_over && task->wakes <= now) {
            task->credit += task->priority;
            if (!best || task->credit > best->credit)
                best = task;
        }
    return best;
}

int main(void)
{
    int left = TASKS, idle = 0;
    for (now = 0; left > 0 && now < 500; now++) {
        struct Task *task = chosen();
        if (!task) {
            putchar('.');
            idle++;
            continue;
        }
        putchar(task->name);
        task->credit = 0;
        if (task->step(task) == ENDS) {
            task->is_over = 1;
            putchar('!');
            left--;
        }
        putchar(' ');
    }
    putchar('\n');
    return left * 64 + idle;
}
