/* expect: ReadOnly at line 4 */
int main(void) {
	char *name = "layc";
	name[0] = 'L';
	return name[0];
}
