/* What the programs of this folder have in place of a C library. */
typedef unsigned char byte;

unsigned read_bytes(void *to, unsigned count);
unsigned write_bytes(const void *from, unsigned count);
void leave(int status);

void print(const char *text);
void print_unsigned(unsigned number);
void print_signed(int number);
void print_hexadecimal(unsigned number);
void print_line(const char *text, unsigned number);

/* the next number of a fixed sequence */
unsigned next_number(void);

/* also called by the compiler for its own ends */
void *memcpy(void *to, const void *from, unsigned count);
void *memmove(void *to, const void *from, unsigned count);
void *memset(void *to, int value, unsigned count);
int memcmp(const void *left, const void *right, unsigned count);
unsigned strlen(const char *text);
int strcmp(const char *left, const char *right);
