/* expect: NoValue at line 10 */
int sign(int n) {
	if (n > 0)
		return 1;
	if (n < 0)
		return -1;
}
int main(void) {
	int up = sign(5);
	if (sign(0) == up)
		return 1;
	return 0;
}
