/* expect: Free at line 9 */
void free(void *);

int main(void)
{
    int numbers[4] = { 1 };
    int *place = numbers;
    free(0);
    free(place);
    return numbers[0];
}
