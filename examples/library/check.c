/* check SHEET: what Ragwashin says of a sheet. With the archive of tools/archive:
   cc -I include examples/library/check.c target/staticlib/libcapi.a -o check */
#include "ragwashin.h"
#include <stdio.h>

/* The longest sheet and one byte more: a longer file is refused by its length. */
static uint8_t sheet[RAGWASHIN_MOST_SHEET_BYTES + 1];
static size_t sheet_len;

/* An answer's high 16 bits are the refusal's number, its low 48 bits the place or what was asked for. */
static uint64_t low(uint64_t answer) { return answer & 0xffffffffffff; }

static int refused(const char *call, uint64_t answer) {
    if (answer >> 48 == 0)
        return 0;
    printf("%s: refused %d at %llu\n", call, (int)(answer >> 48), (unsigned long long)low(answer));
    return 1;
}

/* Names are parts of the sheet: they are printed from where they stand in it. */
static void print_case(const int16_t *room) {
    for (uint16_t variable = 0;; variable++) {
        uint64_t name = ragwashin_name(sheet, sheet_len, variable);
        if (name == 0)
            return;
        printf(" %.*s=%d", (int)(name % 65536), (const char *)sheet + name / 65536, room[variable]);
    }
}

static void check(void) {
    int16_t room[RAGWASHIN_CHECK_ROOM];
    uint64_t answer = ragwashin_check(sheet, sheet_len, room, RAGWASHIN_CHECK_ROOM);
    if (refused("check", answer))
        return;
    printf(low(answer) == 0 ? "check: holds" : "check: fails");
    if (low(answer) == 1)
        print_case(room);
    printf("\n");
}

static void tally(void) {
    uint64_t answer = ragwashin_tally(sheet, sheet_len);
    if (!refused("tally", answer))
        printf("tally: held %d failed %d\n", (int)(low(answer) >> 24), (int)(low(answer) & 0xffffff));
}

static void script(void) {
    static uint8_t room[RAGWASHIN_SCRIPT_ROOM];
    uint64_t answer = ragwashin_script(sheet, sheet_len, room, sizeof room);
    if (!refused("script", answer))
        printf("script: %d bytes\n", (int)low(answer));
}

int main(int words, char **word) {
    FILE *file = words == 2 ? fopen(word[1], "rb") : NULL;
    if (file == NULL) {
        fprintf(stderr, "usage: check SHEET\n");
        return 2;
    }
    sheet_len = fread(sheet, 1, sizeof sheet, file);
    fclose(file);
    if (!refused("read", ragwashin_read(sheet, sheet_len)))
        printf("read: accepted\n");
    check();
    tally();
    script();
    return 0;
}
