/* expect: Null at line 8 */
struct Pair {
    int first, second;
};

static int *second_of(struct Pair *pair)
{
    return &pair->second;
}

int main(void)
{
    struct Pair pair = { 1, 2 };
    return *second_of(&pair) - 2 + (second_of(0) != 0);
}
