/* A matcher of small patterns: a letter, a point for any, a star behind one, the two ends, and classes in brackets. */
int putchar(int);

static int match_here(const char *pattern, const char *text);

static void put_text(const char *text)
{
    while (*text)
        putchar(*text++);
}

/* The end of the first part of a pattern: a class, or one character. */
static const char *end_of_part(const char *pattern)
{
    if (*pattern != '[')
        return pattern + 1;
    while (*pattern != ']')
        pattern++;
    return pattern + 1;
}

static int is_in_class(const char *class, int c)
{
    int wanted = 1, found = 0;
    if (*++class == '^') {
        wanted = 0;
        class++;
    }
    for (; *class != ']'; class++) {
        if (class[1] == '-' && class[2] != ']') {
            found = found || c >= class[0] && c <= class[2];
            class += 2;
        } else {
            found = found || c == *class;
        }
    }
    return found == wanted;
}

static int fits(const char *part, int c)
{
    if (c == 0)
        return 0;
    if (*part == '[')
        return is_in_class(part, c);
    return *part == '.' || *part == c;
}

static int match_star(const char *part, const char *rest, const char *text)
{
    const char *end = text;
    while (fits(part, *end))
        end++;
    for (;; end--) {
        if (match_here(rest, end))
            return 1;
        if (end == text)
            return 0;
    }
}

static int match_here(const char *pattern, const char *text)
{
    const char *end;
    if (*pattern == 0)
        return 1;
    if (pattern[0] == '$' && pattern[1] == 0)
        return *text == 0;
    end = end_of_part(pattern);
    if (*end == '*')
        return match_star(pattern, end + 1, text);
    return fits(pattern, *text) && match_here(end, text + 1);
}

static int match(const char *pattern, const char *text)
{
    if (*pattern == '^')
        return match_here(pattern + 1, text);
    do
        if (match_here(pattern, text))
            return 1;
    while (*text++);
    return 0;
}

int main(void)
{
    static const char *const patterns[] = { "^a*b", "c.t$", "[0-9][0-9]*", "^[^aeiou]*$", "l*o w", "", "^$", "[a-z]*[A-Z]$", "x*" };
    static const char *const texts[] = { "aaab", "the cat", "route 66", "rhythm", "hello world", "", "endinG" };
    unsigned p, t, found = 0;
    for (p = 0; p < sizeof patterns / sizeof patterns[0]; p++) {
        for (t = 0; t < sizeof texts / sizeof texts[0]; t++) {
            int is_found = match(patterns[p], texts[t]);
            putchar(is_found ? 'Y' : '.');
            found += is_found;
        }
        putchar(' ');
        put_text(patterns[p]);
        putchar('\n');
    }
    return found;
}
