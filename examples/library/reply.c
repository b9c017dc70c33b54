/* reply SHEET [REPLY]: without a reply, the script that asks a solver for a failing case; with one, what it comes to.
   cc -I include examples/library/reply.c target/staticlib/libcapi.a -o reply
   ./reply SHEET | z3 -in >REPLY; ./reply SHEET REPLY */
#include "ragwashin.h"
#include <stdio.h>

/* The longest sheet and one byte more: a longer file is refused by its length. The call takes replies of any length,
   this program those below a million bytes. */
static uint8_t sheet[RAGWASHIN_MOST_SHEET_BYTES + 1], reply[1000000];
static size_t sheet_len, reply_len;

/* An answer's high 16 bits are the refusal's number, its low 48 bits the place or what was asked for. */
static int refused(uint64_t answer) {
    if (answer >> 48 == 0)
        return 0;
    printf("refused %d at %llu\n", (int)(answer >> 48), (unsigned long long)(answer & 0xffffffffffff));
    return 1;
}

static void ask(void) {
    static uint8_t room[RAGWASHIN_SCRIPT_ROOM];
    uint64_t answer = ragwashin_ask(sheet, sheet_len, room, sizeof room);
    if (!refused(answer))
        fwrite(room, 1, answer, stdout);
}

/* A variable's name is a part of the sheet, its digits are a part of the reply: both are printed from where they
   stand. */
static void print_case(void) {
    for (uint16_t variable = 0;; variable++) {
        uint64_t name = ragwashin_name(sheet, sheet_len, variable);
        uint64_t digits = ragwashin_digits(sheet, sheet_len, reply, reply_len, variable);
        if (digits == 0)
            return;
        printf(" %.*s=%.*s", (int)(name % 65536), (const char *)sheet + name / 65536, (int)(digits % 65536),
               (const char *)reply + digits / 65536);
    }
}

static void judge(void) {
    uint64_t answer = ragwashin_reply(sheet, sheet_len, reply, reply_len);
    if (refused(answer))
        return;
    printf(answer == 0 ? "unsat claimed" : "fails");
    print_case();
    printf("\n");
}

static int take(const char *name, uint8_t *bytes, size_t most, size_t *len) {
    FILE *file = fopen(name, "rb");
    if (file == NULL)
        return 0;
    *len = fread(bytes, 1, most, file);
    return fclose(file) == 0;
}

int main(int words, char **word) {
    if (words < 2 || words > 3 || !take(word[1], sheet, sizeof sheet, &sheet_len) ||
        (words == 3 && !take(word[2], reply, sizeof reply, &reply_len)) || reply_len == sizeof reply) {
        fprintf(stderr, "usage: reply SHEET [REPLY]\n");
        return 2;
    }
    if (words == 2)
        ask();
    else
        judge();
    return 0;
}
