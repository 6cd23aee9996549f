/* expect: Free at line 7 */
void *malloc(unsigned);
void free(void *);
int main(void) {
	char *text = malloc(8);
	free(text);
	free(text);
	return 0;
}
