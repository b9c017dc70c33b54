/* What the driver and its parts have in common. A part answers the questions of one part of the interface. */
typedef unsigned long size;
typedef unsigned char byte;

enum { /* a question's subject */
    READ = 1, NAME = 2, BLOCK = 3, CHECK = 4, TALLY = 5, SCRIPT = 6, ASK = 7, REPLY = 8, DIGITS = 9,
    MAKE = 10, TEXT = 11, MAKE_TEXT = 12, TEXT_MAKE = 13
};

struct lent {
    const byte *sheet; /* or a plain text, where it is asked about */
    size sheet_length; /* in bytes */
    const byte *reply;
    size reply_length; /* in bytes; 0 where it isn't asked about */
    void *room;
    size room_length; /* in numbers or bytes, as the call has it */
};

extern unsigned long ragwashin_read(const byte *, size);

/* Writes the library's answer; gives 0 where the part does not have the subject. */
int answer(byte subject, unsigned long number, struct lent lent, unsigned long *said);
