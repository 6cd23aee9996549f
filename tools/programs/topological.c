/* Brings tasks into an order in which each stands behind those it needs; a circle of needs is found and printed. */
int putchar(int);

enum { TASKS = 9, NEEDS = 4 };
enum State { NEW, OPEN, DONE };

struct Task {
    const char *name;
    struct Task *needs[NEEDS];
    enum State state;
};

static struct Task tasks[TASKS] = {
    { "lunch", { &tasks[1], &tasks[2], &tasks[8] }, NEW },
    { "soup", { &tasks[3], &tasks[4], &tasks[5] }, NEW },
    { "bread", { &tasks[6], &tasks[7] }, NEW },
    { "water", { 0 }, NEW },
    { "pot", { 0 }, NEW },
    { "carrots", { &tasks[8] }, NEW },
    { "dough", { &tasks[3], &tasks[7] }, NEW },
    { "oven", { 0 }, NEW },
    { "knife", { 0 }, NEW },
};

static void put_text(const char *text)
{
    while (*text)
        putchar(*text++);
}

/* Prints what the task needs and then itself; gives a task of a circle, or null. */
static struct Task *finish(struct Task *task)
{
    int i;
    if (task->state == OPEN)
        return task;
    if (task->state == DONE)
        return 0;
    task->state = OPEN;
    for (i = 0; i < NEEDS && task->needs[i]; i++) {
        struct Task *circle = finish(task->needs[i]);
        if (circle) {
            put_text(task->name);
            putchar(circle == task ? '\n' : '<');
            return circle == task ? 0 : circle;
        }
    }
    task->state = DONE;
    put_text(task->name);
    putchar(' ');
    return 0;
}

static int finish_all(void)
{
    int i, done = 0;
    for (i = 0; i < TASKS; i++)
        tasks[i].state = NEW;
    for (i = 0; i < TASKS; i++) {
        finish(&tasks[i]);
        done += tasks[i].state == DONE;
    }
    putchar('\n');
    return done;
}

int main(void)
{
    int done = finish_all();
    tasks[8].needs[0] = &tasks[2];
    tasks[7].needs[0] = &tasks[5];
    return done * 16 + finish_all();
}
