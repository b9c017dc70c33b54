/* The driver's part for reply and digits. */
#include "driver.h"

extern unsigned long ragwashin_reply(const byte *, size, const byte *, size);
extern unsigned long ragwashin_digits(const byte *, size, const byte *, size, unsigned short);

int answer(byte subject, unsigned long number, struct lent lent, unsigned long *said) {
    switch (subject) {
    case REPLY:
        *said = ragwashin_reply(lent.sheet, lent.sheet_length, lent.reply, lent.reply_length);
        return 1;
    case DIGITS:
        *said = ragwashin_digits(lent.sheet, lent.sheet_length, lent.reply, lent.reply_length, number);
        return 1;
    default: return 0;
    }
}
