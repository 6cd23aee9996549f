/* expect: Subscript at line 6 */
struct Name { char letters[4]; char end; };
int main(void) {
	struct Name name = { "abcd", 'e' };
	int i = 4;
	return name.letters[i];
}
