/* expect: Division at line 6 */
static int table[2] = { -1, -2147483647 - 1 };

int main(void)
{
    int rest = table[1] % table[0];
    return rest;
}
