/* An interpreter of Brainfuck: eight commands on a band of cells; the places of brackets are found before it runs. */
void *malloc(unsigned);
void free(void *);
int putchar(int);

enum { CELLS = 64 };

struct Program {
    const char *text;
    int length;
    int *partner;
};

static int prepare(struct Program *program, const char *text)
{
    int open[32], depth = 0, i;
    program->text = text;
    for (program->length = 0; text[program->length]; program->length++)
        ;
    program->partner = malloc(program->length * sizeof(int));
    for (i = 0; i < program->length; i++) {
        program->partner[i] = -1;
        if (text[i] == '[') {
            open[depth++] = i;
        } else if (text[i] == ']') {
            if (depth == 0)
                return 0;
            program->partner[i] = open[--depth];
            program->partner[open[depth]] = i;
        }
    }
    return depth == 0;
}

static int run(const struct Program *program)
{
    unsigned char band[CELLS] = { 0 }, *cell = band;
    int at, steps = 0;
    for (at = 0; at < program->length; at++) {
        steps++;
        switch (program->text[at]) {
        case '>': cell++; break;
        case '<': cell--; break;
        case '+': ++*cell; break;
        case '-': --*cell; break;
        case '.': putchar(*cell); break;
        case '[':
            if (!*cell)
                at = program->partner[at];
            break;
        case ']':
            if (*cell)
                at = program->partner[at];
            break;
        }
    }
    return steps;
}

int main(void)
{
    struct Program program;
    int steps = 0;
    if (!prepare(&program, "++++++++[>++++[>++>+++>+++>+<<<<-]>+>+>->>+[<]<-]>>.>---.+++++++..+++.>>.<-.<.+++.------.--------.>>+.>++."))
        return 255;
    steps += run(&program);
    free(program.partner);
    if (!prepare(&program, "+++++[>+++++++++<-]>++++>+++[<.>-]<[-]++++++++++."))
        return 254;
    steps += run(&program);
    free(program.partner);
    return steps & 127;
}
