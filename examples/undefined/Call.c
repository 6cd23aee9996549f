/* expect: Call at line 8 */
typedef int (*Action)(int);
static int twice(int n) { return 2 * n; }
static Action actions[2] = { twice };
int main(void) {
	int i, n = 1;
	for (i = 0; i < 2; i++)
		n = actions[i](n);
	return n;
}
