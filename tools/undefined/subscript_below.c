/* expect: Subscript at line 6 */
static int counts[10];

static void count(int digit)
{
    counts[digit]++;
}

int main(void)
{
    const char *text = "314.159";
    for (; *text; text++)
        count(*text - '0');
    return counts[1];
}
