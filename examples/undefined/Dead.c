/* expect: Dead at line 8 */
void *malloc(unsigned);
void free(void *);
int main(void) {
	int *number = malloc(sizeof(int));
	*number = 7;
	free(number);
	return *number;
}
