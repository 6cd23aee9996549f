/* expect: NoValue at line 17 */
int putchar(int);

static int value_of(char letter)
{
    switch (letter) {
    case 'I': return 1;
    case 'V': return 5;
    }
}

int main(void)
{
    const char *text = "VIX";
    int sum = 0;
    for (; *text; text++)
        if (value_of(*text) > 1)
            sum++;
    putchar('0' + sum);
    return 0;
}
