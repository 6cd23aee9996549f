/* expect: Subscript at line 9 */
static int numbers[5];

int main(void)
{
    int i = 5;
    int *end = &numbers[i];
    i++;
    end = &numbers[i];
    return end == 0;
}
