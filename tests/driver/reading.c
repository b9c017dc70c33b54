/* The driver's part for read, name and block. */
#include "driver.h"

extern unsigned long ragwashin_name(const byte *, size, unsigned short);
extern unsigned long ragwashin_block(const byte *, size, unsigned long);

int answer(byte subject, unsigned long number, struct lent lent, unsigned long *said) {
    switch (subject) {
    case READ: *said = ragwashin_read(lent.sheet, lent.sheet_length); return 1;
    case NAME: *said = ragwashin_name(lent.sheet, lent.sheet_length, number); return 1;
    case BLOCK: *said = ragwashin_block(lent.sheet, lent.sheet_length, number); return 1;
    default: return 0;
    }
}
