/* Reads nested values in brackets and braces, as JSON has them, into a tree, and prints them with indentation; faults are told by their place. */
void *malloc(unsigned);
void free(void *);
void exit(int);
int putchar(int);
int getchar(void);

enum Kind { WORD, STRING, LIST, MAP };

struct Value {
    enum Kind kind;
    struct Text *text;
    struct Value *first, *key, *next;
};

struct Text {
    char letter;
    struct Text *next;
};

static int c, at;

static void put_text(const char *text)
{
    while (*text)
        putchar(*text++);
}
static void put_unsigned(unsigned n)
{
    if (n >= 10)
        put_unsigned(n / 10);
    putchar('0' + (int)(n % 10));
}

static void advance(void)
{
    c = getchar();
    at++;
}

static void skip_blanks(void)
{
    while (c == ' ' || c == '\n' || c == '\t')
        advance();
}

static void fail(const char *what)
{
    put_text("fault at ");
    put_unsigned(at);
    put_text(": ");
    put_text(what);
    putchar('\n');
    exit(3);
}

static struct Value *new_value(enum Kind kind)
{
    struct Value *value = malloc(sizeof(struct Value));
    value->kind = kind;
    value->text = 0;
    value->first = value->key = value->next = 0;
    return value;
}

static struct Text **append(struct Text **end)
{
    *end = malloc(sizeof(struct Text));
    (*end)->letter = c;
    (*end)->next = 0;
    return &(*end)->next;
}

static struct Value *read_string(void)
{
    struct Value *value = new_value(STRING);
    struct Text **end = &value->text;
    for (advance(); c != '"'; advance()) {
        if (c == -1)
            fail("a string is open");
        if (c == '\\') {
            end = append(end);
            advance();
        }
        end = append(end);
    }
    advance();
    return value;
}

static int is_of_word(int letter)
{
    return letter >= 'a' && letter <= 'z' || letter >= '0' && letter <= '9' || letter == '-' || letter == '.';
}

static struct Value *read_value(void);

static struct Value *read_items(enum Kind kind, int close)
{
    struct Value *value = new_value(kind), **end = &value->first, *key = 0;
    advance();
    skip_blanks();
    while (c != close) {
        if (kind == MAP) {
            if (c != '"')
                fail("a key is missing");
            key = read_string();
            skip_blanks();
            if (c != ':')
                fail("a colon is missing");
            advance();
        }
        *end = read_value();
        (*end)->key = key;
        end = &(*end)->next;
        skip_blanks();
        if (c == ',')
            advance();
        else if (c != close)
            fail("a comma is missing");
        skip_blanks();
    }
    advance();
    return value;
}

static struct Value *read_value(void)
{
    struct Value *value;
    struct Text **end;
    skip_blanks();
    if (c == '"')
        return read_string();
    if (c == '[')
        return read_items(LIST, ']');
    if (c == '{')
        return read_items(MAP, '}');
    if (!is_of_word(c))
        fail("a value is missing");
    value = new_value(WORD);
    for (end = &value->text; is_of_word(c); advance())
        end = append(end);
    return value;
}

static void print_text(const struct Value *value)
{
    const struct Text *text;
    if (value->kind == STRING)
        putchar('"');
    for (text = value->text; text; text = text->next)
        putchar(text->letter);
    if (value->kind == STRING)
        putchar('"');
}

static void indent(int depth)
{
    putchar('\n');
    while (depth-- > 0)
        put_text("  ");
}

static void print(const struct Value *value, int depth)
{
    const struct Value *item;
    if (value->kind == WORD || value->kind == STRING) {
        print_text(value);
        return;
    }
    putchar(value->kind == LIST ? '[' : '{');
    for (item = value->first; item; item = item->next) {
        indent(depth + 1);
        if (item->key) {
            print_text(item->key);
            put_text(": ");
        }
        print(item, depth + 1);
        if (item->next)
            putchar(',');
    }
    if (value->first)
        indent(depth);
    putchar(value->kind == LIST ? ']' : '}');
}

static int release(struct Value *value)
{
    int count = 0;
    while (value) {
        struct Value *next = value->next;
        while (value->text) {
            struct Text *text = value->text;
            value->text = text->next;
            free(text);
        }
        count += 1 + release(value->first) + release(value->key);
        free(value);
        value = next;
    }
    return count;
}

int main(void)
{
    int count = 0;
    struct Value *value;
    advance();
    for (skip_blanks(); c != -1; skip_blanks()) {
        value = read_value();
        print(value, 0);
        putchar('\n');
        count += release(value);
    }
    return count;
}
