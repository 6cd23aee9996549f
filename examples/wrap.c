int putchar(int);
int main(void) {
	putchar(2147483647 + 2147483647 + 67);
	putchar(0 - 256 + 66);
	putchar(65536 * 65536 + 67);
	putchar(10);
}
