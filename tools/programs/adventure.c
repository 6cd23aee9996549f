/* A text adventure: rooms and ways between them in tables, a lamp and a key, commands of single letters from the input. */
int putchar(int);
int getchar(void);

enum { NORTH, EAST, SOUTH, WEST, WAYS };
enum Item { NOTHING, LAMP, KEY };

struct Room {
    const char *name;
    struct Room *ways[WAYS];
    enum Item item;
    int is_dark, is_locked;
};

struct Player {
    struct Room *room;
    int has[3];
    int moves;
};

static struct Room hall, cellar, attic, vault;

static struct Room hall = { "a hall", { &attic, &cellar, 0, 0 }, NOTHING, 0, 0 };
static struct Room cellar = { "a cellar", { 0, &vault, 0, &hall }, KEY, 1, 0 };
static struct Room attic = { "an attic", { 0, 0, &hall, 0 }, LAMP, 0, 0 };
static struct Room vault = { "the vault", { 0, 0, 0, &cellar }, NOTHING, 0, 1 };

static const char *item_names[] = { "nothing", "a lamp", "a key" };

static void put_text(const char *text)
{
    while (*text)
        putchar(*text++);
}

static void say(const char *before, const char *what, const char *after)
{
    put_text(before);
    put_text(what);
    put_text(after);
    putchar('\n');
}

static int sees(const struct Player *player)
{
    return !player->room->is_dark || player->has[LAMP];
}

static void look(const struct Player *player)
{
    if (!sees(player)) {
        say("It is dark here", "", ".");
        return;
    }
    say("You are in ", player->room->name, ".");
    if (player->room->item != NOTHING)
        say("Here is ", item_names[player->room->item], ".");
}

static void go(struct Player *player, int way)
{
    struct Room *next = player->room->ways[way];
    if (!next) {
        say("There is ", "no way", ".");
    } else if (next->is_locked && !player->has[KEY]) {
        say("The door to ", next->name, " is locked.");
    } else {
        player->room = next;
        player->moves++;
        look(player);
    }
}

static void take(struct Player *player)
{
    enum Item item = player->room->item;
    if (item == NOTHING || !sees(player)) {
        say("You find ", item_names[NOTHING], ".");
        return;
    }
    player->has[item] = 1;
    player->room->item = NOTHING;
    say("You take ", item_names[item], ".");
}

static void obey(struct Player *player, int command)
{
    switch (command) {
    case 'n': go(player, NORTH); break;
    case 'e': go(player, EAST); break;
    case 's': go(player, SOUTH); break;
    case 'w': go(player, WEST); break;
    case 't': take(player); break;
    case 'l': look(player); break;
    case '\n':
    case ' ': break;
    default: say("What is that", "", "?");
    }
}

int main(void)
{
    struct Player player = { &hall, { 0 }, 0 };
    int command;
    look(&player);
    while (player.room != &vault && (command = getchar()) != -1)
        obey(&player, command);
    if (player.room == &vault)
        say("You have won", "", "!");
    return player.moves;
}
