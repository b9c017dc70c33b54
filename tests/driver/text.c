/* The driver's part for text, alone and with make after it. */
#include "driver.h"
#include "texts.h"

int answer(byte subject, unsigned long number, struct lent lent, unsigned long *said) {
    (void)number;
    switch (subject) {
    case READ: *said = ragwashin_read(lent.sheet, lent.sheet_length); return 1;
    case TEXT: *said = ragwashin_text(lent.sheet, lent.sheet_length, lent.room, lent.room_length); return 1;
    case TEXT_MAKE: *said = one_after_other(ragwashin_text, ragwashin_make, lent); return 1;
    default: return 0;
    }
}
