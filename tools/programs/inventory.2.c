/* Parts, what they are made of, and building them from what is in stock. */
void *malloc(unsigned);
void free(void *);

struct Need {
    struct Part *part;
    int count;
    struct Need *next;
};

struct Part {
    const char *name;
    int stock;
    struct Need *needs;
    struct Part *next;
};

static struct Part wheels = { "wheel", 6, 0, 0 };
static struct Part bolts = { "bolt", 40, 0, &wheels };

struct Part *const wheel = &wheels, *const bolt = &bolts;
struct Part *parts = &bolts;
int orders;

struct Part *new_part(const char *name, int stock)
{
    struct Part *part = malloc(sizeof(struct Part));
    part->name = name;
    part->stock = stock;
    part->needs = 0;
    part->next = parts;
    parts = part;
    return part;
}

void needs(struct Part *whole, struct Part *part, int count)
{
    struct Need *need = malloc(sizeof(struct Need));
    need->part = part;
    need->count = count;
    need->next = whole->needs;
    whole->needs = need;
}

/* Makes so many of a part, in stock first; simple parts are ordered by the hundred. Gives how many were made new. */
static int provide(struct Part *part, int count)
{
    int made = 0;
    struct Need *need;
    if (!part->needs) {
        while (part->stock < count) {
            part->stock += 100;
            orders++;
        }
    }
    while (part->stock < count) {
        for (need = part->needs; need; need = need->next) {
            made += provide(need->part, need->count);
            need->part->stock -= need->count;
        }
        part->stock++;
        made++;
    }
    return made;
}

int build(struct Part *part, int count)
{
    int made = provide(part, part->stock + count);
    return made > 7 ? 7 : made;
}

void drop_parts(void)
{
    while (parts != &bolts) {
        struct Part *part = parts;
        parts = part->next;
        while (part->needs) {
            struct Need *need = part->needs;
            part->needs = need->next;
            free(need);
        }
        free(part);
    }
}
