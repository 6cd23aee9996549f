/* expect: Range at line 5 */
int main(void)
{
    int *place = 0, step = 2;
    place = place + step;
    return place != 0;
}
