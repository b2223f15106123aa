/* The doors for C of the turn counter, a 32-bit count kept in an EEPROM image by the scheme of AN1449, of the room that is left in such
   an image, and of a tray of them; of Intel HEX, by which an image comes and goes as text; and of the stylus card, which says how many
   of these turns a sapphire has had; as documents 01 and 02 set them down. The archive is liblyre.a.

   What a caller owes:
   - the archive holds x86-64 code, called by the System V convention: the stack is aligned to 16 bytes at the call, as a C
     compiler does without being asked;
   - image points to n bytes, lives to lives_n numbers, tray to length bytes, counts and codes to counts_n and codes_n numbers, speeds
     and turns to speeds_n and turns_n, and text to room or length bytes, none of them null, even where a length is 0; numbers are
     aligned as uint32_t asks;
   - a buffer that is written into overlaps no other of the call, and nobody else uses them meanwhile;
   - a stack of 16 KB, of which lyre_hex_read takes the most, nearly 10.
   Every length, place and content is allowed besides: what is not good is refused with a number. No function of the C library
   is needed, no memory is asked for, and nothing is kept between calls.

   The image is memory that the caller lends, and not the device: the caller reads the chip into it and writes it back, and the
   archive touches no device. As is lawful for lent memory, compiled code may take a byte that it has just stored there to be
   there; where a caller maps a device in its place, that what is read back is what a real cell holds is the caller's matter. */

#ifndef LYRE_H
#define LYRE_H

#include <stddef.h>
#include <stdint.h>

#ifdef __cplusplus
extern "C" {
#endif

/* The number in `code`. Where a refusal says no more, all else in the answer is 0, and no cell or life changed.
    0  good
    1  n is outside 41..4096, or lives_n is not n
    2  the places m, s and e are not good ones
    3  no mark at m: the image was never opened, or its first opening did not come to an end, or the mark is damaged. lyre_open
       never answers this: it then opens the image for the first time, from count 0
    4  the mark is there, but the map is not sound
    5  a nibble is lost in both copies; place is the lowest such nibble, 0 to 7. A cell is lost that holds 00 or FF, as erased cells
       do and failed ones may, or a byte that is more than one bit from every code
    6  the copies disagree; lag says by how much, and is neither 0 nor 1
    7  a step at the highest count, 4294967295
    8  no spare of the kind holds; place is the nibble, plus 8 in copy 2; cells and lives stay as written so far, and writes and
       tried say what was done. A step refused so may have counted already: lyre_read then gives the next count, with lag 1
    9  a cell of the map does not take its byte; place is its address; the rest as for 8. Where it was the second byte of a
       pointer, the map may be left unsound, so that every call is refused 4 from then on, or with a pointer to some other cell:
       lyre_read may then be refused, or answer another count, a lower one too
   10  a byte one bit from two codes; place is the nibble (never met: no two codes are that near)
   11  the power was lost in a write: place is the cell's address, and cells and lives stay as written so far. Only the two trials,
       lyre_trial_open and lyre_trial_step, answer this
   12  no tray, or a row that is too short for it. Only lyre_tray answers this, and it answers nothing else but 0
   16  a copy other than 1 or 2 was asked of lyre_map_part */

typedef struct {
    uint32_t code;   /* 0, or the number of the refusal */
    uint32_t count;  /* the turns counted; after a step the new count; 0 on a refusal */
    int64_t lag;     /* copy 1 less copy 2 as they were found: 0, or 1 after a step that was stopped; any other in refusal 6 */
    uint64_t place;  /* where a refusal points, else 0 */
    uint64_t writes; /* cell writes asked for in this call, those that a worn cell did not take included */
    uint64_t tried;  /* spare cells tried in this call; 0 in a first opening */
} lyre_answer;

/* What lyre_read answers: the fields of lyre_answer, and behind them which bits were mended. A cell was mended where it holds a
   byte that is one bit from a code, and neither 00 nor FF; it is read as that code. */
typedef struct {
    uint32_t code;
    uint32_t count;
    int64_t lag;
    uint64_t place;
    uint64_t writes; /* 0, as is tried: a read writes nothing */
    uint64_t tried;
    uint32_t bit[8]; /* bit[i]: of the sixteen data cells, how many were mended in bit i, 0 being the lowest; 0 on a refusal */
} lyre_read_answer;

typedef struct {
    uint32_t code;   /* 0, or refusal 1, 2, 3, 4 or 16 */
    uint64_t start;  /* offset in the image of the copy's cells in the map; 0 on a refusal */
    uint64_t length; /* 11; 0 on a refusal */
} lyre_part;

/* What a kept door answers: the fields of lyre_answer, and behind them the record that the next call is given, the ends of the map.
   Both are 0 where there is no map that can be used: the mark is missing, the map is not sound, or n or the places are refused. */
typedef struct {
    uint32_t code;
    uint32_t count;
    int64_t lag;
    uint64_t place;
    uint64_t writes;
    uint64_t tried;
    uint64_t high; /* the highest High pointer */
    uint64_t low;  /* the lowest Low pointer */
} lyre_kept;

/* How many spare cells are left: those that a High cell could move to, and those that a Low cell could. One that either could
   use is counted for both. */
typedef struct {
    uint64_t high;
    uint64_t low;
} lyre_room;

/* What the two doors of Intel HEX answer. Their codes are their own:
    0  good
    1  a line is malformed: no colon first, a character that is no digit, not two digits for each of count + 5 bytes, a record of type
       00 without data or of type 01 with data or an address other than 0, any line after the end record, or a line without its end
    2  a line's checksum is wrong
    3  a record of a type other than 00 and 01
    4  an address at or past n
    5  an address that was there before, even with the same byte
    6  an address below n is missing, or the end record is
    7  n is outside 41..4096
    8  room is less than the text needs, which is 2 * n + 12 * ((n + 15) / 16) + 12, at most 11276
   7 and 8 are tested first, then line by line 1 to 5, and 6 last. A refusal changes neither text nor image. */
typedef struct {
    uint32_t code;
    uint64_t line;   /* the first line at fault, counted from 1; in refusal 6 the last line, 0 if there is none; else 0 */
    uint64_t length; /* of the text that was written; 0 when reading and on a refusal */
} lyre_hex;

/* What a card answers. The codes of the card are its own, and are tested in the order 5, 1, 4, 2, 3, 6:
    0  good
    1  the allowance is outside 1..1000000
    2  the count is below the one when fitted
    3  the runs do not add up to the turns used
    4  more than 64 runs
    5  the text is not in form; when writing, a speed other than 33 and 45 anywhere in the row, or rows of different lengths
    6  room is less than the text needs, which is at most 1706
   On a refusal all else is 0, and text stays as it was. */
typedef struct {
    uint32_t code;
    uint32_t used; /* turns since the sapphire was fitted */
    int64_t left;  /* the allowance less these; negative once overrun */
    uint64_t time; /* cutting time in fifteenths of a second: 27 for a turn at 33 1/3 a minute, 20 for one at 45 */
} lyre_card;

/* What writing a card answers. */
typedef struct {
    uint32_t code;   /* 0, or refusal 5, 1, 4 or 6 */
    uint64_t length; /* of the text that was written; 0 on a refusal */
} lyre_text;

/* In the first six: n bytes of image, the map's 24 cells from m, the area from s to e, e included. lives[i] is the number of good
   writes left in cell i, and lives_n has to be n. */

/* Opens the image: settles a count that is there, or makes map and count 0 where there is no mark.
   Beware: an image whose mark is damaged has none. It is counted from 0 again, and the old count is lost. Where a count is
   expected, call lyre_read first, and do not open on refusal 3. */
lyre_answer lyre_open(uint8_t *image, size_t n, uint32_t *lives, size_t lives_n, size_t m, size_t s, size_t e);

/* Reads the count, and says which bits were mended; writes nothing. */
lyre_read_answer lyre_read(const uint8_t *image, size_t n, size_t m, size_t s, size_t e);

/* Settles the count that is there and stores one more. After refusal 8 or 9 call lyre_read: the step may have counted. */
lyre_answer lyre_step(uint8_t *image, size_t n, uint32_t *lives, size_t lives_n, size_t m, size_t s, size_t e);

/* Says where in the image the pointers of copy 1 or 2 stand. The count need not be readable for it. */
lyre_part lyre_map_part(const uint8_t *image, size_t n, size_t m, size_t s, size_t e, uint32_t copy);

/* lyre_open as it goes where the mains are lost. There is power for that many cell writes, counted as `writes` counts them, and the next
   one that is asked for is torn: it leaves the byte torn in place of its own and takes a life as any write does, while a worn cell
   keeps what it has. Nothing is read back, and the call ends there with refusal 11. With power for every write it answers as
   lyre_open does. */
lyre_answer lyre_trial_open(uint8_t *image, size_t n, uint32_t *lives, size_t lives_n, size_t m, size_t s, size_t e, size_t power,
                            uint8_t torn);

/* The same of lyre_step. What lyre_read and lyre_open answer then is in docs/POWER.md. */
lyre_answer lyre_trial_step(uint8_t *image, size_t n, uint32_t *lives, size_t lives_n, size_t m, size_t s, size_t e, size_t power,
                            uint8_t torn);

/* Reads a tray of dumps: 1 to 64 images one behind another, each of `each` bytes and all with the same m, s and e. Entry i of counts
   and of codes, the first being 0, becomes the count and the code that lyre_read answers of image i alone. An image that lyre_read
   refuses has its own code there and count 0, and those behind it are read all the same; so where `each` is outside 41..4096 and not
   0, every code becomes 1. Entries past the number of images stay as they were, and the tray is not written to.
   Answers 0; or 12 where `each` is 0, length is not a whole number of images from 1 to 64, or a row is shorter than that number. Then
   both rows stay as they were. */
uint32_t lyre_tray(const uint8_t *tray, size_t length, size_t each, size_t m, size_t s, size_t e, uint32_t *counts, size_t counts_n,
                   uint32_t *codes, size_t codes_n);

/* lyre_open, and the ends of the map afterwards. They are worked out from the map, whatever the answer is. */
lyre_kept lyre_kept_open(uint8_t *image, size_t n, uint32_t *lives, size_t lives_n, size_t m, size_t s, size_t e);

/* lyre_step, and the ends of the map afterwards, given those before it: high and low as the last kept call on this chip left them. They
   are handed back as they came, unless a spare was tried or the code is 9; then they are worked out from the map again. So they are
   right as long as m, s and e stay, nothing else touches the cells, and every call that writes is a kept one that is given the last
   one's record, the first of them an open. Whatever is passed, the rest of the answer is that of lyre_step. */
lyre_kept lyre_kept_step(uint8_t *image, size_t n, uint32_t *lives, size_t lives_n, size_t m, size_t s, size_t e, uint64_t high,
                         uint64_t low);

/* The same of lyre_trial_open. */
lyre_kept lyre_kept_trial_open(uint8_t *image, size_t n, uint32_t *lives, size_t lives_n, size_t m, size_t s, size_t e, size_t power,
                               uint8_t torn);

/* The same of lyre_trial_step; the ends are worked out from the map after code 11 too. */
lyre_kept lyre_kept_trial_step(uint8_t *image, size_t n, uint32_t *lives, size_t lives_n, size_t m, size_t s, size_t e, size_t power,
                               uint8_t torn, uint64_t high, uint64_t low);

/* The room that the ends of a map leave, in a few instructions. Any two numbers have their answer; 0 and 0 leave none. */
lyre_room lyre_room_left(uint64_t high, uint64_t low);

/* The room in an image, counted from its whole map; 0 and 0 where there is no map that can be used. */
lyre_room lyre_room_of(const uint8_t *image, size_t n, size_t m, size_t s, size_t e);

/* Writes any n bytes as Intel HEX: records of 16 bytes in rising order, capital digits, a line feed behind each line, and the end
   record. What stands in text past the part written is kept. */
lyre_hex lyre_hex_write(const uint8_t *image, size_t n, uint8_t *text, size_t room);

/* Reads Intel HEX into an image of n bytes: records of 1 to 255 bytes in any order, digits in either letter case, lines ended by a
   line feed or by a carriage return and a line feed. Any bytes are a text, of any length. */
lyre_hex lyre_hex_read(const uint8_t *text, size_t length, uint8_t *image, size_t n);

/* What the card that a text holds answers at a count. The text is the lines fitted=, allowed=, runs=, and for each run speed= and
   turns=, each ended by a line feed, with nothing after the last; a number is plain decimal without leading zeros, 4294967295 at most,
   and a speed is 33 or 45. */
lyre_card lyre_card_at(const uint8_t *text, size_t length, uint32_t count);

/* Writes a card as its text: when it was fitted, the turns it is allowed, and its runs in two rows, of each the speed and its turns.
   What stands in text past the part written is kept. */
lyre_text lyre_card_write(uint32_t fitted, uint32_t allowed, const uint32_t *speeds, size_t speeds_n, const uint32_t *turns,
                          size_t turns_n, uint8_t *text, size_t room);

#ifdef __cplusplus
}
#endif

#endif
