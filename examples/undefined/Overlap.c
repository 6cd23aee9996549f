/* expect: Overlap at line 5 */
void *memcpy(void *, const void *, unsigned);
int main(void) {
	char text[8] = "abcdefg";
	memcpy(text + 1, text, 6);
	return text[1];
}
