/* expect: Dead at line 23 */
void *malloc(unsigned);
void free(void *);

struct Buffer {
    char *text;
    int length;
};

static void drop(struct Buffer *buffer)
{
    free(buffer->text);
    buffer->length = 0;
}

int main(void)
{
    struct Buffer buffer;
    buffer.text = malloc(8);
    buffer.length = 0;
    buffer.text[buffer.length++] = 'a';
    drop(&buffer);
    buffer.text[buffer.length++] = 'b';
    return buffer.length;
}
