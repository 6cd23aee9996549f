/* expect: Overlap at line 8 */
void *memcpy(void *, const void *, unsigned);

int main(void)
{
    char text[12] = "abcdefgh";
    memcpy(text + 8, text, 4);
    memcpy(text + 2, text, 6);
    return text[2];
}
