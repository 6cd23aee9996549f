/* expect: Null at line 7 */
int main(void)
{
    int first[2] = { 1, 2 };
    int *rows[2] = { first };
    int sum = rows[0][1];
    sum += rows[1][0];
    return sum;
}
