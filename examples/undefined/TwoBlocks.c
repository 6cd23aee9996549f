/* expect: TwoBlocks at line 5 */
int main(void) {
	int left[2] = { 1, 2 }, right[2] = { 3, 4 };
	int *at = left, *end = right + 2;
	return at < end;
}
