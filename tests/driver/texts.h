/* What the driver's parts for make and text have in common: both calls, and one after the other. */
extern unsigned long ragwashin_make(const byte *, size, byte *, size);
extern unsigned long ragwashin_text(const byte *, size, byte *, size);

enum { BETWEEN = 1 << 16 }; /* enough for every sheet and for the text of every sheet */
static byte between[BETWEEN];

typedef unsigned long writes(const byte *, size, byte *, size);

/* What the second call answers about what the first one writes; the first one's refusal, where it refuses. */
static unsigned long one_after_other(writes *first, writes *second, struct lent lent) {
    unsigned long said = first(lent.sheet, lent.sheet_length, between, BETWEEN);
    return said >> 48 ? said : second(between, said, lent.room, lent.room_length);
}
