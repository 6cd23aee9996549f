/* expect: Align at line 6 */
void *calloc(unsigned, unsigned);
int main(void) {
	char *bytes = calloc(8, 1);
	int *number = (int *)(bytes + 1);
	return *number;
}
