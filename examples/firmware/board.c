/* What `make run-gcc` puts below the firmware: the calls of the library that layc has itself. */

unsigned read_bytes(void *to, unsigned count);
unsigned write_bytes(const void *from, unsigned count);
void leave(int status);

int putchar(int byte)
{
    unsigned char text = byte;
    write_bytes(&text, 1);
    return text;
}

int getchar(void)
{
    unsigned char text;
    return read_bytes(&text, 1) == 1 ? text : -1;
}

void exit(int status)
{
    leave(status);
    for (;;)
        ;
}
