/* expect: Null at line 15 */
static int *place_of(int *numbers, int count, int wanted)
{
    int i;
    for (i = 0; i < count; i++)
        if (numbers[i] == wanted)
            return &numbers[i];
    return 0;
}

int main(void)
{
    int numbers[4] = { 1, 2, 3, 4 };
    *place_of(numbers, 4, 3) = 30;
    *place_of(numbers, 4, 5) = 50;
    return numbers[2];
}
