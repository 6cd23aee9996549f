/* expect: Shift at line 6 */
int main(void) {
	unsigned bits = 1, by = 24;
	bits <<= by;
	by += 8;
	return bits >> by;
}
