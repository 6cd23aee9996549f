/* expect: Range at line 6 */
void *calloc(unsigned, unsigned);
int main(void) {
	int *begin = calloc(4, sizeof(int)), *end = begin + 4, sum = 0;
	while (sum == 0)
		sum += *--end;
	return sum;
}
