/* expect: Range at line 8 */
static int numbers[10];

int main(void)
{
    int *place = numbers;
    unsigned distance = 0x3ffffff0;
    place += distance;
    return place == numbers;
}
