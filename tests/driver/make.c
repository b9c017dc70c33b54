/* The driver's part for make, alone and with text after it. The text stands in the sheet's place. */
#include "driver.h"
#include "texts.h"

int answer(byte subject, unsigned long number, struct lent lent, unsigned long *said) {
    (void)number;
    switch (subject) {
    case MAKE: *said = ragwashin_make(lent.sheet, lent.sheet_length, lent.room, lent.room_length); return 1;
    case MAKE_TEXT: *said = one_after_other(ragwashin_make, ragwashin_text, lent); return 1;
    default: return 0;
    }
}
