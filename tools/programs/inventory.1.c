/* A store of parts in three files: this one takes the bill of a machine apart and orders what is missing. */
int putchar(int);

struct Part;

extern int orders;
extern struct Part *const wheel, *const bolt;
struct Part *new_part(const char *, int);
void needs(struct Part *, struct Part *, int);
int build(struct Part *, int);
void print_stock(void);
void drop_parts(void);

static struct Part *cart(void)
{
    struct Part *axle = new_part("axle", 3), *frame = new_part("frame", 1), *whole = new_part("cart", 0);
    needs(axle, wheel, 2);
    needs(axle, bolt, 4);
    needs(frame, bolt, 12);
    needs(whole, axle, 2);
    needs(whole, frame, 1);
    return whole;
}

int main(void)
{
    struct Part *whole = cart();
    int built = build(whole, 2);
    print_stock();
    built += build(whole, 3);
    print_stock();
    drop_parts();
    putchar('\n');
    return built * 32 + orders;
}
