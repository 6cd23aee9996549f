/* expect: Division at line 6 */
int putchar(int);
int main(void) {
	int left;
	for (left = 3; left >= 0; left--)
		putchar('0' + 6 / left);
	return 0;
}
