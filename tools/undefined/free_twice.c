/* expect: Free at line 11 */
void *malloc(unsigned);
void free(void *);

struct Owner {
    int *shared;
};

static void drop(struct Owner *owner)
{
    free(owner->shared);
}

int main(void)
{
    struct Owner a, b;
    a.shared = malloc(sizeof(int));
    b = a;
    drop(&a);
    drop(&b);
    return 0;
}
