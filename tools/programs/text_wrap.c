/* Fills lines of the input to a width: words are kept whole, blank lines part paragraphs, and lines are spread to both edges. */
void *malloc(unsigned);
void free(void *);
int putchar(int);
int getchar(void);

enum { WIDTH = 34, LONGEST = 33 };

struct Word {
    char *text;
    int length;
    struct Word *next;
};

struct Line {
    struct Word *first, **end;
    int words, letters;
};

static int lines;

static void clear(struct Line *line)
{
    while (line->first) {
        struct Word *word = line->first;
        line->first = word->next;
        free(word->text);
        free(word);
    }
    line->end = &line->first;
    line->words = line->letters = 0;
}

static void print(struct Line *line, int is_spread)
{
    int gaps = line->words - 1, spare = WIDTH - line->letters - gaps, gap = 0, i;
    const struct Word *word;
    if (line->words == 0)
        return;
    for (word = line->first; word; word = word->next) {
        for (i = 0; i < word->length; i++)
            putchar(word->text[i]);
        if (word->next) {
            int blanks = 1;
            gap++;
            if (is_spread)
                blanks += spare * gap / gaps - spare * (gap - 1) / gaps;
            while (blanks-- > 0)
                putchar(' ');
        }
    }
    putchar('\n');
    lines++;
    clear(line);
}

static void add(struct Line *line, const char *text, int length)
{
    struct Word *word;
    int i;
    if (line->letters + line->words + length > WIDTH)
        print(line, 1);
    word = malloc(sizeof(struct Word));
    word->text = malloc(length);
    for (i = 0; i < length; i++)
        word->text[i] = text[i];
    word->length = length;
    word->next = 0;
    *line->end = word;
    line->end = &word->next;
    line->words++;
    line->letters += length;
}

int main(void)
{
    struct Line line;
    char text[LONGEST];
    int c, length = 0, ends = 0;
    line.first = 0;
    clear(&line);
    do {
        c = getchar();
        if (c != -1 && c != ' ' && c != '\n') {
            if (ends > 1) {
                print(&line, 0);
                putchar('\n');
            }
            ends = 0;
            if (length == LONGEST) {
                add(&line, text, length);
                length = 0;
            }
            text[length++] = c;
            continue;
        }
        if (length > 0)
            add(&line, text, length);
        length = 0;
        ends += c == '\n';
    } while (c != -1);
    print(&line, 0);
    return lines;
}
