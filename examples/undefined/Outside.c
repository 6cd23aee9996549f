/* expect: Outside at line 6 */
void *calloc(unsigned, unsigned);
int main(void) {
	int *numbers = calloc(4, sizeof(int)), i, sum = 0;
	for (i = 0; i <= 4; i++)
		sum += numbers[i];
	return sum;
}
