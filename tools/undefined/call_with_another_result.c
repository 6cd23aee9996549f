/* expect: Call at line 12 */
typedef char (*Narrow)(void);

static int wide(void)
{
    return 500;
}

int main(void)
{
    Narrow function = (Narrow)wide;
    return function();
}
