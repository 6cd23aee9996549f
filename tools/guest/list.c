/* A linked list whose nodes come from an allocator of this program: a list of free blocks, ordered
   by address, that splits blocks and joins neighbours. */
#include "support.h"

struct block {
	unsigned size; /* of the whole block, its head included */
	struct block *next;
};

static union {
	struct block first;
	byte bytes[16384];
} arena;
static struct block *free_blocks;

static void start_arena(void)
{
	free_blocks = &arena.first;
	free_blocks->size = sizeof arena;
	free_blocks->next = 0;
}

static void *allocate(unsigned count)
{
	unsigned size = (count + sizeof(unsigned) + 7) & ~7u;
	struct block **link = &free_blocks;
	while (*link && (*link)->size < size)
		link = &(*link)->next;
	struct block *found = *link;
	if (!found)
		return 0;
	if (found->size - size >= sizeof(struct block)) {
		struct block *rest = (struct block *)((byte *)found + size);
		rest->size = found->size - size;
		rest->next = found->next;
		*link = rest;
		found->size = size;
	} else {
		*link = found->next;
	}
	return (unsigned *)found + 1;
}

static void join_with_next(struct block *block)
{
	if (block->next && (byte *)block + block->size == (byte *)block->next) {
		block->size += block->next->size;
		block->next = block->next->next;
	}
}

static void release(void *pointer)
{
	struct block *block = (struct block *)((unsigned *)pointer - 1);
	struct block *before = 0, *after = free_blocks;
	while (after && after < block) {
		before = after;
		after = after->next;
	}
	block->next = after;
	if (before)
		before->next = block;
	else
		free_blocks = block;
	join_with_next(block);
	if (before)
		join_with_next(before);
}

struct node {
	struct node *next;
	short key;
	byte length;
	char text[13];
};

static struct node *insert(struct node *list, int key)
{
	struct node **link = &list;
	while (*link && (*link)->key < key)
		link = &(*link)->next;
	struct node *node = allocate(sizeof(struct node) + (key & 31));
	if (!node) {
		print("no room\n");
		return list;
	}
	node->key = key;
	node->length = key % 13;
	memset(node->text, 'a' + key % 26, 13);
	node->next = *link;
	*link = node;
	return list;
}

static struct node *reversed(struct node *list)
{
	struct node *done = 0;
	while (list) {
		struct node *next = list->next;
		list->next = done;
		done = list;
		list = next;
	}
	return done;
}

static struct node *without_every(struct node *list, int n)
{
	struct node **link = &list;
	for (int i = 1; *link; i++) {
		if (i % n == 0) {
			struct node *gone = *link;
			*link = gone->next;
			release(gone);
		} else {
			link = &(*link)->next;
		}
	}
	return list;
}

static unsigned free_bytes(void)
{
	unsigned sum = 0;
	for (struct block *block = free_blocks; block; block = block->next)
		sum += block->size;
	return sum;
}

static void show(const struct node *list)
{
	for (; list; list = list->next) {
		print_signed(list->key);
		print(":");
		write_bytes(list->text, list->length);
		print(" ");
	}
	print("\n");
}

int main(void)
{
	struct node *list = 0;
	start_arena();
	for (int i = 0; i < 40; i++)
		list = insert(list, next_number() % 1000);
	show(list);
	list = without_every(list, 3);
	list = reversed(list);
	show(list);
	print_line("free bytes", free_bytes());
	list = reversed(list);
	for (int i = 0; i < 30; i++)
		list = insert(list, next_number() % 2000);
	show(list);
	list = without_every(list, 1);
	print_line("free bytes at the end", free_bytes());
	return free_blocks->next == 0 && free_bytes() == sizeof arena ? 42 : 1;
}
