/* Puts trials to the library: reads them on standard input, calls the archive's functions (by the part
   that it is linked with) and writes the answers. The lent sheet ends where a page without access begins,
   and so do the lent reply and the lent room, so that a look or a store past it ends the program; some are
   lent a second time right after such a page, or as a null pointer where the length is 0, and must be answered
   alike. Answers are written trial by trial, so that the last one written tells where the program ended. A trial
   is as the oracle has it. With an argument, the driver itself goes past or before what it lends, to show that
   this is caught. No headers: what it calls of the C library is declared here. */
#include "driver.h"

extern long read(int, void *, size);
extern long write(int, const void *, size);
extern void *mmap(void *, size, int, int, int, long);
extern int mprotect(void *, size, int);

enum { PAGE = 4096, MOST_BYTES = 64 << 20, MOST_REPLY = 16 << 20, MOST_ROOM = 1 << 20, MOST_ANSWERS = 1 << 20, MOST_QUESTIONS = 1024 };
enum { QUESTION = 9, LENT_TWICE = 8, BESIDE = 64 };
enum { /* exit statuses */
    CUT_SHORT = 2, TOO_MUCH = 3, NO_MEMORY = 4, NOT_WRITTEN = 5, LENT_CHANGED = 6, NO_SUCH_SUBJECT = 7,
    NOT_ALIKE = 8, CHANGED_BESIDE_ROOM = 9
};

enum side { END, START }; /* which side of an area is lent */

struct trial {
    size sheet_length, reply_length, questions;
};

static byte *sheets, *replies, *rooms; /* areas between two pages without access */
static byte kept[MOST_BYTES], kept_reply[MOST_REPLY]; /* what was lent, to be compared afterwards */
static byte questions[QUESTION * MOST_QUESTIONS];
static byte answers[MOST_ANSWERS], again[MOST_ANSWERS];

/* Gives how many bytes came, fewer than asked for at the end of the input only. */
static size take(byte *to, size count) {
    size have = 0;
    while (have < count) {
        long came = read(0, to + have, count - have);
        if (came <= 0) break;
        have += came;
    }
    return have;
}

static int give(const byte *from, size count) {
    for (size done = 0; done < count;) {
        long went = write(1, from + done, count - done);
        if (went <= 0) return 0;
        done += went;
    }
    return 1;
}

static unsigned long number(const byte *from, int count) {
    unsigned long n = 0;
    for (int i = count; i > 0; i--) n = n << 8 | from[i - 1];
    return n;
}

static void copy(byte *to, const byte *from, size count) {
    for (size i = 0; i < count; i++) to[i] = from[i];
}

static int same(const byte *one, const byte *other, size count) {
    for (size i = 0; i < count; i++)
        if (one[i] != other[i]) return 0;
    return 1;
}

/* This many bytes between two pages without access, or null. */
static byte *area_of(size bytes) {
    byte *area = mmap(0, bytes + 2 * PAGE, 3, 0x22, -1, 0); /* read and write; private, no file */
    if (area == (byte *)-1) return 0;
    byte *within = area + PAGE;
    return mprotect(area, PAGE, 0) || mprotect(within + bytes, PAGE, 0) ? 0 : within;
}

/* The bytes of a subject's room for each number of its length; 0 where it has none. */
static size room_unit(byte subject) {
    return subject == CHECK ? 2 : subject == SCRIPT || subject == ASK || subject >= MAKE ? 1 : 0;
}

static byte filling(unsigned pattern, unsigned place) { return pattern * (2 * place + 1) >> 24; }

/* The bytes beside the room, on the side that has access. */
static byte *beside(byte *room, size bytes, enum side side) { return side == END ? room - BESIDE : room + bytes; }

static void fill(byte *room, size bytes, enum side side, unsigned pattern) {
    for (size i = 0; i < bytes; i++) room[i] = filling(pattern, i);
    for (unsigned i = 0; i < BESIDE; i++) beside(room, bytes, side)[i] = filling(~pattern, i);
}

static int kept_beside(byte *room, size bytes, enum side side, unsigned pattern) {
    for (unsigned i = 0; i < BESIDE; i++)
        if (beside(room, bytes, side)[i] != filling(~pattern, i)) return 0;
    return 1;
}

/* Nothing can be lent in two ways: as the end of an area, or as no place at all. */
static byte *null_or(byte *place, size bytes, enum side side) { return bytes == 0 && side == START ? 0 : place; }

/* Writes the answer to one question, and the room after it; gives a status and adds what was written. */
static int answer_one(const byte *question, struct lent lent, enum side side, byte *to, size *at) {
    unsigned long asked = number(question + 1, 8), said;
    unsigned pattern = asked >> 32;
    size room_length = asked & 0xffffffff, bytes = room_length * room_unit(question[0]);
    if (bytes + BESIDE > MOST_ROOM || *at + 8 + bytes > MOST_ANSWERS) return TOO_MUCH;
    byte *room = side == END ? rooms + MOST_ROOM - bytes : rooms;
    lent.room = null_or(room, bytes, side);
    lent.room_length = room_length;
    fill(room, bytes, side, pattern);
    if (!answer(question[0], asked, lent, &said)) return NO_SUCH_SUBJECT;
    if (!kept_beside(room, bytes, side, pattern)) return CHANGED_BESIDE_ROOM;
    for (int i = 0; i < 8; i++) to[*at + i] = said >> 8 * i;
    copy(to + *at + 8, room, bytes);
    *at += 8 + bytes;
    return 0;
}

/* Puts bytes to this side of an area. */
static byte *lend(byte *area, size most, const byte *bytes, size length, enum side side) {
    byte *place = side == END ? area + most - length : null_or(area, length, side);
    copy(place, bytes, length);
    return place;
}

/* Lends the kept bytes on this side and writes the answers to all questions. */
static int answer_all(enum side side, const struct trial *trial, byte *to, size *written) {
    byte *sheet = lend(sheets, MOST_BYTES, kept, trial->sheet_length, side);
    byte *reply = lend(replies, MOST_REPLY, kept_reply, trial->reply_length, side);
    struct lent lent = {sheet, trial->sheet_length, reply, trial->reply_length, 0, 0};
    *written = 0;
    for (size q = 0; q < trial->questions; q++) {
        int status = answer_one(questions + QUESTION * q, lent, side, to, written);
        if (status) return status;
    }
    return same(sheet, kept, trial->sheet_length) && same(reply, kept_reply, trial->reply_length) ? 0 : LENT_CHANGED;
}

static int answer_trial(const struct trial *trial, size number) {
    size written, again_written;
    int status = answer_all(END, trial, answers, &written);
    if (!status && number % LENT_TWICE == 0) {
        status = answer_all(START, trial, again, &again_written);
        if (!status && !(written == again_written && same(answers, again, written))) status = NOT_ALIKE;
    }
    return status ? status : give(answers, written) ? 0 : NOT_WRITTEN;
}

/* Goes where 'past-sheet', 'before-sheet', 'past-reply', 'before-reply', 'past-room' or 'before-room' says. */
static int elsewhere(const char *where) {
    int past = where[0] == 'p';
    const char *what = where + (past ? 5 : 7);
    if (what[0] == 's') return *(volatile byte *)(past ? sheets + MOST_BYTES : sheets - 1);
    if (what[1] == 'e') return *(volatile byte *)(past ? replies + MOST_REPLY : replies - 1);
    *(volatile byte *)(past ? rooms + MOST_ROOM : rooms - 1) = 1;
    return 0;
}

/* Takes a trial's sheet, reply and questions. */
static int take_trial(const struct trial *trial) {
    if (trial->sheet_length > MOST_BYTES || trial->reply_length > MOST_REPLY || trial->questions > MOST_QUESTIONS)
        return TOO_MUCH;
    if (take(kept, trial->sheet_length) < trial->sheet_length) return CUT_SHORT;
    if (take(kept_reply, trial->reply_length) < trial->reply_length) return CUT_SHORT;
    return take(questions, QUESTION * trial->questions) < QUESTION * trial->questions ? CUT_SHORT : 0;
}

int main(int words, char **word) {
    byte head[12];
    sheets = area_of(MOST_BYTES);
    replies = area_of(MOST_REPLY);
    rooms = area_of(MOST_ROOM);
    if (!sheets || !replies || !rooms) return NO_MEMORY;
    if (words > 1) return elsewhere(word[1]);
    for (size trials = 0;; trials++) {
        size came = take(head, 12);
        if (came == 0) return 0;
        if (came < 12) return CUT_SHORT;
        struct trial trial = {number(head, 4), number(head + 4, 4), number(head + 8, 4)};
        int status = take_trial(&trial);
        if (!status) status = answer_trial(&trial, trials);
        if (status) return status;
    }
}
