/* Puts the bytes of the input into a linked list, turns it round, and prints it. */
void *malloc(unsigned);
void free(void *);
int getchar(void);
int putchar(int);

struct Node {
	int byte;
	struct Node *next;
};

int main(void) {
	struct Node *list = 0, *turned = 0, *node, **end = &list;
	int c;
	while ((c = getchar()) != -1) {
		node = malloc(sizeof(struct Node));
		node->byte = c;
		node->next = 0;
		*end = node;
		end = &node->next;
	}
	while (list) {
		node = list;
		list = node->next;
		node->next = turned;
		turned = node;
	}
	while (turned) {
		node = turned;
		putchar(node->byte);
		turned = node->next;
		free(node);
	}
	return 0;
}
