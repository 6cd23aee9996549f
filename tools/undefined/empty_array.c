/* expect: Empty at line 8 */
int main(void)
{
    int counts[4], i, most = 0;
    for (i = 0; i < 3; i++)
        counts[i] = i;
    for (i = 0; i < 4; i++)
        if (counts[i] > most)
            most = counts[i];
    return most;
}
