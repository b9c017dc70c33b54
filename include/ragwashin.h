/* Ragwashin's C interface: ten calls on the bytes of a rule sheet, two of them also on those of a solver's reply; and
   one on those of a plain text, of which it makes a sheet.

   What a caller owes:
   - A pointer is valid for its length: sheet_len bytes can be read at sheet, reply_len bytes at reply, text_len
     bytes at text, room_len bytes or numbers can be written at room. With length 0 nothing is looked at, and any pointer will do, NULL too. A pointer to numbers
     is aligned for them.
   - The room lies apart from the sheet or the text, and while a call runs nothing else writes to the sheet, the
     reply or the text, or uses the room.
   - Calls keep nothing from one to the next and share no data: several threads may call at once, also with the
     same sheet, if each has a room of its own.
   - A call takes at most 448 KB of stack (458,752 bytes; measured, see README.md; but for ragwashin_make 256 KB), no
     heap, and of the C library memcpy and memset alone.

   What a call owes: whatever the bytes and numbers, it returns, reads no byte that isn't lent, and writes to
   nothing but the room, as said below. All of this is proved of the source.

   A call that refuses says so in one number: refusal * 2^48 + place. There are V variables and N nodes; the goal is
   the last node. Of several causes the first counts: 1 to 5 in order, each over the whole sheet; then, at one node
   after the other, 6, 7, 8; then 6 and 7 of the goal as such; then 10; then 9; for a reply 11, 12, 13 in place of 10
   and 9; for the text of a sheet 19 before 9. For a text 18 comes first, then 4 for more than 16 variables or 1,984
   words in the goal, then what its sheet would be refused for, then 9.

   no.  what is wrong                                                                    place
   1    the length is zero, no multiple of 512, or over 33,280                           0
   2    a block's check is wrong                                                         the lowest such block
   3    the edition isn't 1                                                              0
   4    N isn't in 1..1984, V is over 16, the length isn't that of N nodes, or a byte    0
        outside the records of the variables and nodes should be zero and isn't
   5    a variable's record: min is over max; the name isn't a letter and then at most   the lowest such variable;
        15 letters, digits or underscores; a byte should be zero and isn't; or an        of two with one name
        earlier variable has the same name                                               the later
   6    a node's record: the kind isn't known; a field or byte that it doesn't use       the node
        isn't zero; an operand isn't the node that the order puts there, or the order
        has none there; a variable's number isn't below V
        the goal's tree isn't all nodes                                                  N - 1
   7    an operand is a number and should be a truth value, or the other way round       the node
        the goal is a number                                                             N - 1
   8    a node's range goes below -32,768 or above 32,767                                the node
   9    the room is too short                                                            what is needed, in numbers
                                                                                         (check) or bytes (script, ask,
                                                                                         make, text)
   10   there are more than 1,000,000 cases (check and tally only)                       0
   11   the bytes are no reply to this sheet's script                                    the first byte that fits no
                                                                                         reply, or the length where
                                                                                         they stop short
   12   a value in the reply leaves its variable's domain                                the lowest such variable
   13   the reply's case doesn't make the rule fail                                      0
   18   the bytes are no text                                                            the first byte that fits no
                                                                                         text, or the length where
                                                                                         they stop short
   19   a variable's name is a word of texts, so that the sheet has none                 the lowest such variable */
#ifndef RAGWASHIN_H
#define RAGWASHIN_H

#include <stddef.h>
#include <stdint.h>

/* The longest sheet; a longer one is refused by its length, so that one byte more is all that need be read. */
#define RAGWASHIN_MOST_SHEET_BYTES 33280

/* Rooms that always do: for the check in numbers, for either script and for a text in bytes. For a sheet that is made of
   a text it is the longest sheet. */
#define RAGWASHIN_CHECK_ROOM 16
#define RAGWASHIN_SCRIPT_ROOM 20480
#define RAGWASHIN_TEXT_ROOM 23183

#ifdef __cplusplus
extern "C" {
#endif

/* Reads a sheet. 0 where it is accepted, or a refusal, 1 to 8. */
uint64_t ragwashin_read(const uint8_t *sheet, size_t sheet_len);

/* A variable's name: its offset in the sheet times 65,536 plus its length; 0 where the sheet is refused or there is no such variable. */
uint64_t ragwashin_name(const uint8_t *sheet, size_t sheet_len, uint16_t variable);

/* A block's content: 510, and the bytes stand at 512 times k; 0 where the block isn't wholly inside or its check is wrong. Of the sheet
   nothing else is looked at. */
uint64_t ragwashin_block(const uint8_t *sheet, size_t sheet_len, uint64_t k);

/* Tries all cases. 0 where the rule holds, 1 where it fails, or a refusal, 1 to 10. Where it fails, the first failing case stands at the front of
   the room, a number for each variable, variable 0 first; nothing else of the room is ever changed. room_len counts numbers; with fewer than
   there are variables the refusal is 9, also where the rule holds. */
uint64_t ragwashin_check(const uint8_t *sheet, size_t sheet_len, int16_t *room, size_t room_len);

/* Counts the cases. The number that held times 2^24 plus the number that failed, or a refusal, 1 to 8 or 10. */
uint64_t ragwashin_tally(const uint8_t *sheet, size_t sheet_len);

/* Writes the script. The number of its bytes, which stand at the front of the room, or a refusal, 1 to 9; nothing else of the room is ever
   changed. */
uint64_t ragwashin_script(const uint8_t *sheet, size_t sheet_len, uint8_t *room, size_t room_len);

/* Writes the script that also asks for a failing case: it begins with (set-option :produce-models true), and where there are variables
   (get-value (v0 v1 ...)) stands before (exit). The answer and the room as for ragwashin_script. */
uint64_t ragwashin_ask(const uint8_t *sheet, size_t sheet_len, uint8_t *room, size_t room_len);

/* Judges a solver's reply to that script. 0 where unsat is claimed, which is the solver's word alone; 1 where the reply gives a case, and the
   case was tried and does make the rule fail; or a refusal, 1 to 8 or 11 to 13. A reply is 'unsat' before a blank or the end, and nothing
   behind it is read; or 'sat' and, where there are variables, one list of pairs, each variable once, in order, with its value:

       sat
       ((v0 #x0000)
        (v1 #b0000000000000001))

   #x and four hexadecimal digits of either case, or #b and sixteen binary ones. Blanks are tab, line feed, carriage return and space; one at
   least stands between two words, and nothing but blanks behind the list. A reply may be of any length and is read once, in time linear
   in it; a place above 2^48 - 1 is told as 2^48 - 1. */
uint64_t ragwashin_reply(const uint8_t *sheet, size_t sheet_len, const uint8_t *reply, size_t reply_len);

/* A variable's digits alone, behind #x or #b: their offset in the reply times 65,536 plus their number; 0 unless the reply gives a case that
   fails (ragwashin_reply gives 1), there is such a variable, and the offset is below 2^48. */
uint64_t ragwashin_digits(const uint8_t *sheet, size_t sheet_len, const uint8_t *reply, size_t reply_len, uint16_t variable);

/* Makes the sheet of a plain text. The number of its bytes, which stand at the front of the room, or a refusal: 18, 4, 5, 7, 8 or 9; nothing
   else of the room is ever changed. A text is a line for each variable and one for the goal, operators before their operands:

       var seated 0 1
       var trained 0 1
       goal eq seated trained

   One space between two words, one line feed behind each line, nothing else; the words are true false not and or implies iff eq lt le neg add
   sub mul if, decimal numbers from -32768 to 32767 without plus, -0 or spare zeros, and declared names, which are none of the words. A text
   may be of any length; a place above 2^48 - 1 is told as 2^48 - 1. With at most 16 variables it is read in time linear in its length. With
   more, each word in the goal that is a name, and one that is nothing, is looked for in all of the declarations, so that the time may be
   their bytes times the goal's words; the answer then is 18 or 4. */
uint64_t ragwashin_make(const uint8_t *text, size_t text_len, uint8_t *room, size_t room_len);

/* Writes the plain text of a sheet, of which ragwashin_make makes the same sheet again. The number of its bytes, which stand at the front of
   the room, or a refusal, 1 to 8, 19 or 9; nothing else of the room is ever changed. */
uint64_t ragwashin_text(const uint8_t *sheet, size_t sheet_len, uint8_t *room, size_t room_len);

#ifdef __cplusplus
}
#endif

#endif
