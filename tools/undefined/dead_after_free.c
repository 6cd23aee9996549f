/* expect: Dead at line 11 */
void *malloc(unsigned);
void free(void *);

int main(void)
{
    int *number = malloc(sizeof(int)), sum;
    *number = 7;
    sum = *number;
    free(number);
    sum += *number;
    return sum;
}
