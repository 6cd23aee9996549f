/* expect: TwoBlocks at line 6 */
static int left[4], right[4];

static int distance(const int *from, const int *to)
{
    return to - from;
}

int main(void)
{
    return distance(left, left + 3) + distance(left, right);
}
