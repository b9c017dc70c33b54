/* The driver's part for the script's second form. */
#include "driver.h"

extern unsigned long ragwashin_ask(const byte *, size, byte *, size);

int answer(byte subject, unsigned long number, struct lent lent, unsigned long *said) {
    (void)number;
    switch (subject) {
    case READ: *said = ragwashin_read(lent.sheet, lent.sheet_length); return 1;
    case ASK: *said = ragwashin_ask(lent.sheet, lent.sheet_length, lent.room, lent.room_length); return 1;
    default: return 0;
    }
}
