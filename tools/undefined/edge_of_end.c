/* expect: Edge at line 6 */
static int first[4], second[4];

static int is_at(const int *place, const int *other)
{
    return place == other;
}

int main(void)
{
    return is_at(first, second) + is_at(first + 3, second + 3) + is_at(first + 4, second);
}
