/* expect: Huge at line 6 */
void *malloc(unsigned);
struct Cell { int value, next, left, right; };
int main(void) {
	unsigned count = 0x0fffffff;
	struct Cell *cells = malloc(count * sizeof(struct Cell));
	return cells == 0;
}
