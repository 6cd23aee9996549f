/* expect: Outside at line 7 */
static int last_of(const int *begin, const int *end)
{
    int last = 0;
    while (begin != end)
        last = *begin++;
    return last + *end;
}

int main(void)
{
    static const int numbers[3] = { 1, 2, 3 };
    return last_of(numbers, numbers + 3);
}
