int putchar(int);
int main(void) {
	putchar(72);
	putchar(100 + 1);
	putchar(2 * 54);
	putchar(2 * (50 + 4));
	putchar(200 - 89);
	putchar(33);
	putchar(10);
	return 0;
}
