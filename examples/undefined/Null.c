/* expect: Null at line 5 */
struct Node { int value; struct Node *next; };
int main(void) {
	struct Node last = { 2, 0 }, first = { 1, &last };
	return first.next->next->value;
}
