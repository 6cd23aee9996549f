/* expect: ReadOnly at line 7 */
static char *reverse(char *begin, char *end)
{
    char *first = begin;
    while (begin < --end) {
        char kept = *begin;
        *begin++ = *end;
        *end = kept;
    }
    return first;
}

int main(void)
{
    char *text = "ab", own[3] = "ab";
    return *reverse(own, own + 2) + *reverse(text, text + 2);
}
