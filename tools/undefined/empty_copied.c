/* expect: Empty at line 11 */
struct Range {
    int from, to;
};

int main(void)
{
    struct Range range, copy;
    range.from = 3;
    copy = range;
    if (copy.from == 3 && copy.to > 3)
        return 2;
    return 1;
}
