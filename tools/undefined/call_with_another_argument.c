/* expect: Call at line 12 */
typedef int (*OfInt)(int);

static int first(int *numbers)
{
    return numbers != 0;
}

int main(void)
{
    OfInt function = (OfInt)first;
    return function(1);
}
