/* Tells how much stack each call takes with the sheet on standard input, which has 16 variables, a reply that gives
   each the value 0, and the sheet's text: the bytes of read, name, block, check, tally, script, ask, reply and digits,
   in a line, and with TEXTS also those of text and make. A call that does nothing counts as none. */
#include "driver.h"
#include "painted.h"

extern unsigned long ragwashin_name(const byte *, size, unsigned short);
extern unsigned long ragwashin_block(const byte *, size, unsigned long);
extern unsigned long ragwashin_check(const byte *, size, short *, size);
extern unsigned long ragwashin_tally(const byte *, size);
extern unsigned long ragwashin_script(const byte *, size, byte *, size);
extern unsigned long ragwashin_ask(const byte *, size, byte *, size);
extern unsigned long ragwashin_reply(const byte *, size, const byte *, size);
extern unsigned long ragwashin_digits(const byte *, size, const byte *, size, unsigned short);
#ifdef TEXTS
extern unsigned long ragwashin_make(const byte *, size, byte *, size);
extern unsigned long ragwashin_text(const byte *, size, byte *, size);
#endif
extern long read(int, void *, size);
extern long write(int, const void *, size);

enum { MOST = 1 << 16, OWN = 1 << 12 };

static byte sheet[MOST], room[MOST];
static short numbers[256];
static size length;
static const byte reply[] = "sat((v0 #x0000)(v1 #x0000)(v2 #x0000)(v3 #x0000)(v4 #x0000)(v5 #x0000)(v6 #x0000)(v7 #x0000)"
                            "(v8 #x0000)(v9 #x0000)(v10 #x0000)(v11 #x0000)(v12 #x0000)(v13 #x0000)(v14 #x0000)"
                            "(v15 #b0000000000000000))";
static const size reply_length = sizeof reply - 1;

__attribute__((noinline)) static unsigned long nothing(const byte *bytes, size count) {
    __asm__ volatile("" : : "r"(bytes), "r"(count));
    return 0;
}

static unsigned long call_nothing(void) { return nothing(sheet, length); }
static unsigned long call_read(void) { return ragwashin_read(sheet, length); }
static unsigned long call_name(void) { return ragwashin_name(sheet, length, 0); }
static unsigned long call_block(void) { return ragwashin_block(sheet, length, 0); }
static unsigned long call_check(void) { return ragwashin_check(sheet, length, numbers, 256); }
static unsigned long call_tally(void) { return ragwashin_tally(sheet, length); }
static unsigned long call_script(void) { return ragwashin_script(sheet, length, room, MOST); }
static unsigned long call_ask(void) { return ragwashin_ask(sheet, length, room, MOST); }
static unsigned long call_reply(void) { return ragwashin_reply(sheet, length, reply, reply_length); }
static unsigned long call_digits(void) { return ragwashin_digits(sheet, length, reply, reply_length, 15); }

#ifdef TEXTS
static byte text[MOST];
static size text_length;
static unsigned long call_text(void) { return text_length = ragwashin_text(sheet, length, text, MOST); }
/* Its text is there: it is printed first. */
static unsigned long call_make(void) { return ragwashin_make(text, text_length, room, MOST); }
#endif

typedef unsigned long call(void);
static call *const volatile calls[] = {call_read,   call_name, call_block, call_check, call_tally,
                                       call_script, call_ask,  call_reply, call_digits,
#ifdef TEXTS
                                       call_text,   call_make
#endif
};
enum { CALLS = sizeof calls / sizeof calls[0] };

/* Calls from below the painter's own frame, so that all of the call is in the paint. */
__attribute__((noinline)) static void with_gap(call *call) {
    volatile byte gap[OWN];
    for (int i = 0; i < OWN; i++) gap[i] = 1;
    gap[call() % OWN] = 0;
    (void)gap[0];
}

__attribute__((noinline)) static size taken(call *call) {
    unsigned long top = ((unsigned long)__builtin_frame_address(0) - OWN) & ~7ul;
    paint(top);
    with_gap(call);
    return top - lowest(top);
}

static void tell(size bytes, byte after) {
    byte text[24];
    int at = sizeof text;
    text[--at] = after;
    do text[--at] = '0' + bytes % 10; while (bytes /= 10);
    write(1, text + at, sizeof text - at);
}

int main(void) {
    while (length < MOST) {
        long came = read(0, sheet + length, MOST - length);
        if (came <= 0) break;
        length += came;
    }
    reach();
    /* The case fails, or it is tried and doesn't. */
    unsigned long said = call_reply();
    if (ragwashin_read(sheet, length) != 0 || (said != 1 && said >> 48 != 13)) return 1;
#ifdef TEXTS
    if (call_text() >> 48 || call_make() != length) return 3;
#endif
    for (int i = 0; i < CALLS; i++) {
        size none = taken(call_nothing), bytes = taken(calls[i]);
        if (none == 0 || bytes >= PAINTED) return 2;
        tell(bytes - none, i < CALLS - 1 ? ' ' : '\n');
    }
    return 0;
}
