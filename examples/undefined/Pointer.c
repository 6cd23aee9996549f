/* expect: Pointer at line 5 */
int main(void) {
	int number = 1, *pointer = &number;
	unsigned char *bytes = (unsigned char *)&pointer;
	return bytes[0];
}
