/* expect: Edge at line 5 */
int main(void) {
	int left[2] = { 1, 2 }, right[2] = { 3, 4 };
	int *end = left + 2, *begin = right;
	return end == begin;
}
