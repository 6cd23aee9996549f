/* expect: Shift at line 4 */
static unsigned rotated(unsigned value, unsigned by)
{
    return value << by | value >> (32 - by);
}

int main(void)
{
    return rotated(0x80000001, 1) == 3 && rotated(7, 0) == 7;
}
