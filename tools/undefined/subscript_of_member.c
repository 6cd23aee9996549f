/* expect: Subscript at line 12 */
struct Person {
    char name[4];
    int age;
};

int main(void)
{
    struct Person person = { "Ada", 36 }, *same = &person;
    int i, sum = 0;
    for (i = 0; i < 8; i++)
        sum += same->name[i];
    return sum & 127;
}
