/* expect: Call at line 14 */
typedef int (*OfTwo)(int, int);
typedef int (*OfOne)(int);

static int one(int n)
{
    return n;
}

int main(void)
{
    OfTwo function = (OfTwo)one;
    int sum = ((OfOne)function)(3);
    return sum + function(1, 2);
}
