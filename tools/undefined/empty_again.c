/* expect: Empty at line 9 */
int main(void)
{
    int i, total = 0;
    for (i = 0; i < 3; i++) {
        int seen;
        if (i == 0)
            seen = 1;
        if (seen)
            total++;
    }
    return total;
}
