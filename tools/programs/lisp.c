/* A small Lisp: lists of pairs, symbols that stand once, closures with environments as lists; the input is read, evaluated and printed. */
void *calloc(unsigned, unsigned);
void free(void *);
void exit(int);
int putchar(int);
int getchar(void);

enum Kind { NIL, NUMBER, SYMBOL, PAIR, BUILT_IN, CLOSURE };

struct Object;

typedef struct Object *(*Function)(struct Object *);

struct Object {
    enum Kind kind;
    int number;
    char name[10];
    Function function;
    struct Object *head, *tail, *frame, *older;
};

static struct Object nil, *symbols = &nil, *globals = &nil, *newest;
static int c = ' ', made;

static void put_text(const char *text)
{
    while (*text)
        putchar(*text++);
}
static void put_unsigned(unsigned n)
{
    if (n >= 10)
        put_unsigned(n / 10);
    putchar('0' + (int)(n % 10));
}

static void put_number(int n)
{
    unsigned size = (unsigned)n;
    if (n < 0) {
        putchar('-');
        size = 0u - size;
    }
    put_unsigned(size);
}

static struct Object *object(enum Kind kind)
{
    struct Object *o = calloc(1, sizeof(struct Object));
    o->kind = kind;
    o->older = newest;
    newest = o;
    made++;
    return o;
}

static void release_all(void)
{
    while (newest) {
        struct Object *older = newest->older;
        free(newest);
        newest = older;
    }
}

static struct Object *pair(struct Object *head, struct Object *tail)
{
    struct Object *o = object(PAIR);
    o->head = head;
    o->tail = tail;
    return o;
}

static struct Object *number(int n)
{
    struct Object *o = object(NUMBER);
    o->number = n;
    return o;
}

static struct Object *symbol(const char *name)
{
    struct Object *each, *o;
    int i;
    for (each = symbols; each != &nil; each = each->tail) {
        for (i = 0; name[i] && each->head->name[i] == name[i]; i++)
            ;
        if (name[i] == 0 && each->head->name[i] == 0)
            return each->head;
    }
    o = object(SYMBOL);
    for (i = 0; name[i]; i++)
        o->name[i] = name[i];
    symbols = pair(o, symbols);
    return o;
}

static int is_blank(void)
{
    return c == ' ' || c == '\n';
}

static struct Object *read(void);

static struct Object *read_rest(void)
{
    struct Object *head;
    while (is_blank())
        c = getchar();
    if (c == ')' || c == -1) {
        c = getchar();
        return &nil;
    }
    head = read();
    return pair(head, read_rest());
}

static struct Object *read(void)
{
    char name[10] = "";
    int length = 0, value = 0, is_number = 1;
    while (is_blank())
        c = getchar();
    if (c == -1)
        return 0;
    if (c == '(') {
        c = getchar();
        return read_rest();
    }
    while (c != -1 && !is_blank() && c != '(' && c != ')') {
        is_number = is_number && c >= '0' && c <= '9';
        value = value * 10 + c - '0';
        if (length < 9)
            name[length++] = c;
        c = getchar();
    }
    return is_number ? number(value) : symbol(name);
}

static void print(const struct Object *o)
{
    switch (o->kind) {
    case NIL: put_text("()"); break;
    case NUMBER: put_number(o->number); break;
    case SYMBOL: put_text(o->name); break;
    case PAIR:
        putchar('(');
        for (; o->kind == PAIR; o = o->tail) {
            print(o->head);
            if (o->tail->kind == PAIR)
                putchar(' ');
        }
        putchar(')');
        break;
    default: put_text("#f");
    }
}

static struct Object *binding(struct Object *name, struct Object *frame)
{
    for (; frame != &nil; frame = frame->tail)
        if (frame->head->head == name)
            return frame->head;
    for (frame = globals; frame != &nil; frame = frame->tail)
        if (frame->head->head == name)
            return frame->head;
    put_text("unknown ");
    put_text(name->name);
    putchar('\n');
    exit(9);
    return 0;
}

static struct Object *eval(struct Object *o, struct Object *frame);

static struct Object *eval_all(struct Object *list, struct Object *frame)
{
    struct Object *head;
    if (list == &nil)
        return &nil;
    head = eval(list->head, frame);
    return pair(head, eval_all(list->tail, frame));
}

static struct Object *apply(struct Object *f, struct Object *values)
{
    struct Object *frame = f->frame, *names;
    if (f->kind == BUILT_IN)
        return f->function(values);
    for (names = f->head; names != &nil; names = names->tail) {
        frame = pair(pair(names->head, values->head), frame);
        values = values->tail;
    }
    return eval(f->tail, frame);
}

static struct Object *eval(struct Object *o, struct Object *frame)
{
    struct Object *f, *value;
    if (o->kind == SYMBOL)
        return binding(o, frame)->tail;
    if (o->kind != PAIR)
        return o;
    if (o->head == symbol("quote"))
        return o->tail->head;
    if (o->head == symbol("if"))
        return eval(eval(o->tail->head, frame) != &nil ? o->tail->tail->head : o->tail->tail->tail->head, frame);
    if (o->head == symbol("lambda")) {
        f = object(CLOSURE);
        f->head = o->tail->head;
        f->tail = o->tail->tail->head;
        f->frame = frame;
        return f;
    }
    if (o->head == symbol("define")) {
        value = eval(o->tail->tail->head, frame);
        globals = pair(pair(o->tail->head, value), globals);
        return o->tail->head;
    }
    f = eval(o->head, frame);
    return apply(f, eval_all(o->tail, frame));
}

static struct Object *add(struct Object *a) { return number(a->head->number + a->tail->head->number); }
static struct Object *subtract(struct Object *a) { return number(a->head->number - a->tail->head->number); }
static struct Object *times(struct Object *a) { return number(a->head->number * a->tail->head->number); }
static struct Object *less(struct Object *a) { return a->head->number < a->tail->head->number ? symbol("t") : &nil; }
static struct Object *cons(struct Object *a) { return pair(a->head, a->tail->head); }
static struct Object *car(struct Object *a) { return a->head->head; }
static struct Object *cdr(struct Object *a) { return a->head->tail; }

static void built_in(const char *name, Function function)
{
    struct Object *o = object(BUILT_IN), *s = symbol(name);
    o->function = function;
    globals = pair(pair(s, o), globals);
}

int main(void)
{
    struct Object *o;
    int lines = 0;
    built_in("+", add);
    built_in("-", subtract);
    built_in("*", times);
    built_in("<", less);
    built_in("cons", cons);
    built_in("car", car);
    built_in("cdr", cdr);
    while ((o = read()) != 0) {
        print(eval(o, &nil));
        putchar('\n');
        lines++;
    }
    put_number(made);
    putchar('\n');
    release_all();
    return lines;
}
