/* expect: NoValue at line 16 */
static const int numbers[3] = { 4, 8, 6 };

static int place_of(int wanted)
{
    int i;
    for (i = 0; i < 3; i++)
        if (numbers[i] == wanted)
            return i;
}

int main(void)
{
    int sum = place_of(8);
    place_of(5);
    if (place_of(7) == 2)
        sum++;
    return sum;
}
