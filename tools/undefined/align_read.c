/* expect: Align at line 6 */
static unsigned char message[8] = { 1, 0, 0, 0, 2, 0, 0, 0 };

static unsigned word_at(const unsigned char *place)
{
    return *(const unsigned *)place;
}

int main(void)
{
    return word_at(message) + word_at(message + 4) + word_at(message + 3);
}
