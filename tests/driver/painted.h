/* Paints the stack below a place, and tells how far down the paint has gone since. */
enum { PAINTED = 1 << 20 };
static const unsigned long PAINT = 0x5aa5c33c96690ff0;

/* Has the system give the stack as far down as it is to be painted. */
__attribute__((noinline)) static void reach(void) {
    volatile unsigned char below[PAINTED + (1 << 16)];
    for (unsigned long i = 0; i < sizeof below; i += 1024) below[i] = 0;
}

static inline __attribute__((always_inline)) void paint(unsigned long top) {
    for (unsigned long place = top - 8; place >= top - PAINTED; place -= 8) *(volatile unsigned long *)place = PAINT;
}

/* The lowest place where the paint is gone; all of it gone is more than can be told. */
static inline unsigned long lowest(unsigned long top) {
    unsigned long place = top - PAINTED;
    while (place < top && *(volatile unsigned long *)place == PAINT) place += 8;
    return place;
}
