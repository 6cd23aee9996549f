/* expect: ReadOnly at line 7 */
static char *names[2] = { "first", "second" };

int main(void)
{
    char *name = names[1];
    name[0] = 'S';
    return names[1][0];
}
