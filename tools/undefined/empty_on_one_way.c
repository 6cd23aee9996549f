/* expect: Empty at line 9 */
static int sign_of(int n)
{
    int sign;
    if (n > 0)
        sign = 1;
    else if (n < 0)
        sign = -1;
    return sign ? sign + 2 : 0;
}

int main(void)
{
    return sign_of(5) + sign_of(-5) + sign_of(0);
}
