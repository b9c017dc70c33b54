/* The driver's part for check and tally. */
#include "driver.h"

extern unsigned long ragwashin_check(const byte *, size, short *, size);
extern unsigned long ragwashin_tally(const byte *, size);

int answer(byte subject, unsigned long number, struct lent lent, unsigned long *said) {
    (void)number;
    switch (subject) {
    case READ: *said = ragwashin_read(lent.sheet, lent.sheet_length); return 1;
    case CHECK: *said = ragwashin_check(lent.sheet, lent.sheet_length, lent.room, lent.room_length); return 1;
    case TALLY: *said = ragwashin_tally(lent.sheet, lent.sheet_length); return 1;
    default: return 0;
    }
}
