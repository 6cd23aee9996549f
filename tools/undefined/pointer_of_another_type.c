/* expect: Pointer at line 12 */
struct Item {
    int *place;
};

int main(void)
{
    static int number = 1;
    struct Item item;
    char **other = (char **)&item.place;
    item.place = &number;
    return **other;
}
