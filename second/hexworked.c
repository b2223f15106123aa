/* Cases whose outcome document 02, P2, gives, or that were worked out from it. They hold the second maker to the document, and
   the archive to both. Most are texts for an image of 41 bytes, which hold 0 to 40. */

#include "hexcompare.h"

#include <stdio.h>
#include <string.h>

#define FIRST ":10000000000102030405060708090A0B0C0D0E0F78"
#define SECOND ":10001000101112131415161718191A1B1C1D1E1F68"
#define THIRD ":0900200020212223242526272893"
#define SHORT_THIRD ":080020002021222324252627BC" /* without address 40 */
#define END ":00000001FF"
#define DATA FIRST "\n" SECOND "\n" THIRD "\n"
#define STANDARD DATA END "\n"

enum { small = 41 };

static uint64_t number;
static uint8_t image[largest_image], text[largest_text];
static size_t text_n;

static void next_case(void)
{
    number += 1;
    begin(number);
}

/* The image before is told apart from every one that is read. */
static second_hex read_bytes(const void *bytes, size_t length, size_t n)
{
    static uint8_t before[largest_image];
    for (size_t i = 0; i < n; i++)
        before[i] = (uint8_t)(image[i] ^ 0x55);
    lend(before, n, bytes, length);
    return call(door_read);
}

static void count_up(size_t n)
{
    for (size_t i = 0; i < n; i++)
        image[i] = (uint8_t)i;
}

/* Expects the bytes of `image`. */
static void expect_read(const void *bytes, size_t length, size_t n, const char *what)
{
    next_case();
    second_hex answer = read_bytes(bytes, length, n);
    expect(answer.code == 0 && answer.line == 0 && answer.length == 0, what);
    expect(memcmp(image_now(), image, n) == 0, what);
}

static void expect_refused(const void *bytes, size_t length, size_t n, uint32_t code, uint64_t line, const char *what)
{
    next_case();
    second_hex answer = read_bytes(bytes, length, n);
    expect(answer.code == code && answer.line == line && answer.length == 0, what);
}

static void good_texts(void)
{
    static const char *const texts[][2] = {
        {STANDARD, "the standard text"},
        {FIRST "\r\n" SECOND "\r\n" THIRD "\r\n" END "\r\n", "lines ended by CR LF"},
        {FIRST "\r\n" SECOND "\n" THIRD "\n" END "\r\n", "line ends of both kinds"},
        {THIRD "\n" SECOND "\n" FIRST "\n" END "\n", "records in falling order"},
        {SECOND "\n:0100280028AF\n" FIRST "\n" SHORT_THIRD "\n" END "\n", "records in any order, one of one byte"},
        {":10000000000102030405060708090a0b0c0d0e0f78\n:10001000101112131415161718191a1b1c1d1e1f68\n" THIRD "\n:00000001ff\n",
         "lower case"},
        {":10000000000102030405060708090a0B0C0d0e0F78\n" SECOND "\n" THIRD "\n:00000001Ff\n", "both letter cases in a line"},
    };
    count_up(small);
    for (size_t i = 0; i < sizeof texts / sizeof *texts; i++)
        expect_read(texts[i][0], strlen(texts[i][0]), small, texts[i][1]);
}

typedef struct {
    const char *text;
    uint32_t code;
    uint64_t line;
    const char *what;
} refusal;

static void expect_each(const refusal *tries, size_t tries_n)
{
    count_up(small);
    for (size_t i = 0; i < tries_n; i++)
        expect_refused(tries[i].text, strlen(tries[i].text), small, tries[i].code, tries[i].line, tries[i].what);
}

#define EXPECT_EACH(tries) expect_each(tries, sizeof tries / sizeof *tries)

static void malformed_lines(void)
{
    static const refusal tries[] = {
        {"\n" STANDARD, 1, 1, "a blank line first"},
        {FIRST "\n\n" SECOND "\n" THIRD "\n" END "\n", 1, 2, "a blank line between two"},
        {STANDARD "\n", 1, 5, "a blank line last"},
        {STANDARD "\r\n", 1, 5, "a blank line last, ended by CR LF"},
        {STANDARD "\r", 1, 5, "a CR behind the last line"},
        {DATA END, 1, 4, "the last LF missing"},
        {DATA END "\r", 1, 4, "a CR alone does not end a line"},
        {FIRST "\r" SECOND "\n" THIRD "\n" END "\n", 1, 1, "a lone CR between two records"},
        {"\r" STANDARD, 1, 1, "a CR first"},
        {FIRST "\n" SECOND "\r\r\n" THIRD "\n" END "\n", 1, 2, "CR CR LF"},
        {FIRST "\n" SECOND " \n" THIRD "\n" END "\n", 1, 2, "a space behind a record"},
        {FIRST "\n " SECOND "\n" THIRD "\n" END "\n", 1, 2, "a space before a record"},
        {DATA ":00 000001FF\n", 1, 4, "a space in a record"},
        {DATA ":00000001FF \r\n", 1, 4, "a space before CR LF"},
        {DATA "00000001FF\n", 1, 4, "no colon"},
        {DATA ";00000001FF\n", 1, 4, "another character for the colon"},
        {DATA "::00000001FF\n", 1, 4, "two colons"},
        {DATA ":00000001FG\n", 1, 4, "the letter behind F"},
        {DATA ":00000001Fg\n", 1, 4, "the letter behind f"},
        {DATA ":00000001F@\n", 1, 4, "the character before A"},
        {DATA ":00000001F`\n", 1, 4, "the character before a"},
        {DATA ":/0000001FF\n", 1, 4, "the character before 0"},
        {DATA "::0000001FF\n", 1, 4, "the character behind 9"},
        {DATA ":00000001\xC6\xC6\n", 1, 4, "letters with the highest bit set"},
        {DATA ":00000001FFF\n", 1, 4, "a digit more"},
        {DATA ":00000001F\n", 1, 4, "a digit less"},
        {DATA ":\n", 1, 4, "no byte"},
        {DATA ":00\n", 1, 4, "one byte"},
        {DATA ":000000FF\n", 1, 4, "four bytes"},
        {DATA ":0000000100FF\n", 1, 4, "a byte more than the count says"},
        {":0F000000000102030405060708090A0B0C0D0E0F79\n" SECOND "\n" THIRD "\n" END "\n", 1, 1, "a count too low"},
        {":11000000000102030405060708090A0B0C0D0E0F77\n" SECOND "\n" THIRD "\n" END "\n", 1, 1, "a count too high"},
        {DATA ":0000000000\n" END "\n", 1, 4, "a data record with no data"},
        {DATA ":0100000100FE\n", 1, 4, "an end record with data"},
        {DATA ":00000101FE\n", 1, 4, "an end record with address 1"},
        {DATA ":00010001FE\n", 1, 4, "an end record with address 256"},
        {STANDARD END "\n", 1, 5, "a second end record"},
        {STANDARD ":0000000200\n", 1, 5, "any line behind the end record"},
        {FIRST "\n" END "\n" SECOND "\n" THIRD "\n" END "\n", 1, 3, "an end record in the middle"},
    };
    EXPECT_EACH(tries);
}

static void other_refusals(void)
{
    static const refusal tries[] = {
        {":10000000000102030405060708090A0B0C0D0E0F79\n" SECOND "\n" THIRD "\n" END "\n", 2, 1, "a checksum too high"},
        {FIRST "\n:10001000101112131415161718191A1B1C1D1E1F67\n" THIRD "\n" END "\n", 2, 2, "a checksum too low"},
        {FIRST "\n:10001000111112131415161718191A1B1C1D1E1F68\n" THIRD "\n" END "\n", 2, 2, "a wrong byte"},
        {DATA ":00000001FE\n", 2, 4, "the end record's checksum"},
        {":020000040000FA\n" STANDARD, 3, 1, "a record of type 04 first"},
        {":020000021000EC\n" STANDARD, 3, 1, "a record of type 02 first"},
        {DATA ":0400000300003800C1\n" END "\n", 3, 4, "type 03"},
        {DATA ":04000005000000CD2A\n" END "\n", 3, 4, "type 05"},
        {DATA ":00000002FE\n" END "\n", 3, 4, "type 02 with no data"},
        {DATA ":00000003FD\n" END "\n", 3, 4, "type 03 with no data"},
        {DATA ":00000004FC\n" END "\n", 3, 4, "type 04 with no data"},
        {DATA ":00000005FB\n" END "\n", 3, 4, "type 05 with no data"},
        {DATA ":00000006FA\n" END "\n", 3, 4, "type 06"},
        {DATA ":00000010F0\n" END "\n", 3, 4, "type 10 hex"},
        {DATA ":000000817F\n" END "\n", 3, 4, "type 81 hex"},
        {DATA ":000000FF01\n" END "\n", 3, 4, "type FF hex"},
        {FIRST "\n" SECOND "\n" SHORT_THIRD "\n:02002800282985\n" END "\n", 4, 4, "two bytes at the last address"},
        {DATA ":0100290000D6\n" END "\n", 4, 4, "the address behind the last"},
        {DATA ":01FFFF000001\n" END "\n", 4, 4, "the highest address"},
        {DATA ":02FFFF00000000\n" END "\n", 4, 4, "past the highest address"},
        {FIRST "\n" FIRST "\n" SECOND "\n" THIRD "\n" END "\n", 5, 2, "a record twice"},
        {DATA ":0100000000FF\n" END "\n", 5, 4, "an equal byte twice"},
        {DATA ":0100000001FE\n" END "\n", 5, 4, "another byte"},
        {FIRST "\n:02000F000F10D0\n" SECOND "\n" THIRD "\n" END "\n", 5, 2, "one of two bytes twice"},
        {":02000F000F10D0\n" FIRST "\n" SECOND "\n" THIRD "\n" END "\n", 5, 2, "the later line is the one at fault"},
        {"", 6, 0, "an empty text"},
        {END "\n", 6, 1, "an end record alone"},
        {DATA, 6, 3, "no end record"},
        {FIRST "\n" THIRD "\n" END "\n", 6, 3, "a record missing"},
        {":0F0001000102030405060708090A0B0C0D0E0F78\n" SECOND "\n" THIRD "\n" END "\n", 6, 4, "the first address missing"},
        {FIRST "\n" SECOND "\n" SHORT_THIRD "\r\n" END "\r\n", 6, 4, "the last address missing"},
        {SECOND "\n" THIRD "\n", 6, 2, "a record and the end record missing"},
    };
    EXPECT_EACH(tries);
}

/* In a line the tests are made in the order of their numbers, and the first line at fault decides. */
static void several_refusals(void)
{
    static const refusal tries[] = {
        {DATA ":0000000001\n" END "\n", 1, 4, "malformed, and the checksum wrong"},
        {DATA ":00000101FF\n", 1, 4, "an end record with an address, and the checksum wrong"},
        {DATA ":01000002FD\n" END "\n", 1, 4, "malformed, and the type wrong"},
        {DATA ":0200290029AC\n" END "\n", 1, 4, "malformed, and out of range"},
        {DATA ":0200000000FE\n" END "\n", 1, 4, "malformed, and twice"},
        {DATA ":0000000200\n" END "\n", 2, 4, "checksum and type wrong"},
        {DATA ":0100290000D7\n" END "\n", 2, 4, "checksum wrong and out of range"},
        {DATA ":0100000000FE\n" END "\n", 2, 4, "checksum wrong and twice"},
        {DATA ":020029040000D1\n" END "\n", 3, 4, "type wrong and out of range"},
        {DATA ":0100100400EB\n" END "\n", 3, 4, "type wrong and twice"},
        {DATA ":02002800282985\n" END "\n", 4, 4, "out of range and twice"},
        {FIRST "\n" FIRST "\n:0100290000D6\n:00000004FC\n:00000001FE\n\n", 5, 2, "5, then 4, 3, 2 and 1"},
        {FIRST "\n:0100290000D6\n" FIRST "\n" END "\n", 4, 2, "4, then 5"},
        {FIRST "\n:00000004FC\n\n", 3, 2, "3, then 1"},
        {FIRST "\n:00000001FE\n\n", 2, 2, "2, then 1"},
        {END "\n:0100290000D6\n", 1, 2, "behind an end record that comes first"},
        {FIRST "\n" FIRST "\n", 5, 2, "5, and much is missing"},
    };
    EXPECT_EACH(tries);
}

static void sizes(void)
{
    static const char longer[] = DATA ":0100290029AD\n" END "\n";
    count_up(largest_image);
    expect_refused(STANDARD, strlen(STANDARD), 40, 7, 0, "40 bytes are too few");
    expect_refused(STANDARD, strlen(STANDARD), 4097, 7, 0, "4097 bytes are too many");
    expect_refused("", 0, 0, 7, 0, "no byte and an empty text");
    expect_refused("\n", 1, 40, 7, 0, "the size is refused before a malformed line");
    expect_refused(STANDARD, strlen(STANDARD), 42, 6, 4, "a text for one byte less");
    expect_read(longer, strlen(longer), 42, "a text for 42 bytes");
    expect_refused(longer, strlen(longer), 41, 4, 4, "a text for one byte more");
    expect_refused("\0" STANDARD, 1 + strlen(STANDARD), 41, 1, 1, "a byte 0 first");
    expect_refused(STANDARD "\0", strlen(STANDARD) + 1, 41, 1, 5, "a byte 0 behind the last line");
}

/* Adds a record of bytes of `image`. */
static void add_record(size_t address, size_t count)
{
    char *end = (char *)text + text_n;
    size_t sum = count + address / 256 + address % 256;
    end += sprintf(end, ":%02zX%04zX00", count, address);
    for (size_t i = 0; i < count; i++) {
        end += sprintf(end, "%02X", image[address + i]);
        sum += image[address + i];
    }
    end += sprintf(end, "%02zX\n", (256 - sum % 256) % 256);
    text_n = (size_t)(end - (char *)text);
}

static void add_text(const char *more)
{
    memcpy(text + text_n, more, strlen(more));
    text_n += strlen(more);
}

static void long_records(void)
{
    count_up(256);
    text_n = 0;
    add_record(1, 255), add_record(0, 1), add_text(END "\n");
    expect_read(text, text_n, 256, "a record of 255 bytes and one of 1");
    count_up(4096);
    text_n = 0;
    for (size_t address = 4096; address > 0; address--)
        add_record(address - 1, 1);
    add_text(END "\n");
    expect_read(text, text_n, 4096, "4096 records of one byte, falling");
    expect_refused(text, text_n - strlen(END "\n"), 4096, 6, 4096, "the same without an end record");
    text_n = 0;
    for (size_t address = 0; address < 4080; address += 255)
        add_record(address, 255);
    add_record(4080, 16), add_text(END "\n");
    expect_read(text, text_n, 4096, "4096 bytes in records of 255");
    expect_refused(text, text_n, 4095, 4, 17, "the same for one byte less");
    text_n = 0;
    add_record(0, 255), add_record(4095, 2);
    expect_refused(text, text_n, 4096, 4, 2, "two bytes at address 4095");
    memset(text, '0', 60000);
    memcpy(text, END, strlen(END));
    text_n = strlen(END) + 2 * 100 * 256;
    add_text("\n");
    expect_refused(text, text_n, 41, 1, 1, "25600 bytes more than the count says");
}

/* Four lines that are printed in many places as an example of the format. */
static void known_lines(void)
{
    static const char lines[] = ":10010000214601360121470136007EFE09D2190140\n:100110002146017E17C20001FF5F16002148011928\n"
                                ":10012000194E79234623965778239EDA3F01B2CAA7\n:100130003F0156702B5E712B722B732146013421C7\n";
    static const uint8_t bytes[64] = {
        0x21, 0x46, 0x01, 0x36, 0x01, 0x21, 0x47, 0x01, 0x36, 0x00, 0x7E, 0xFE, 0x09, 0xD2, 0x19, 0x01,
        0x21, 0x46, 0x01, 0x7E, 0x17, 0xC2, 0x00, 0x01, 0xFF, 0x5F, 0x16, 0x00, 0x21, 0x48, 0x01, 0x19,
        0x19, 0x4E, 0x79, 0x23, 0x46, 0x23, 0x96, 0x57, 0x78, 0x23, 0x9E, 0xDA, 0x3F, 0x01, 0xB2, 0xCA,
        0x3F, 0x01, 0x56, 0x70, 0x2B, 0x5E, 0x71, 0x2B, 0x72, 0x2B, 0x73, 0x21, 0x46, 0x01, 0x34, 0x21,
    };
    count_up(256);
    memcpy(image + 256, bytes, sizeof bytes);
    text_n = 0;
    add_text(lines), add_record(0, 255), add_record(255, 1), add_text(END "\n");
    expect_read(text, text_n, 320, "lines of another maker");
}

static void expect_written(size_t n, size_t room, uint32_t code, size_t length, const char *what)
{
    next_case();
    memset(text, 0x55, largest_text);
    lend(image, n, text, room);
    second_hex answer = call(door_write);
    expect(answer.code == code && answer.line == 0 && answer.length == length, what);
}

static void writing(void)
{
    count_up(largest_image);
    expect_written(41, 200, 0, 130, "41 bytes take 130 characters");
    expect(memcmp(text_now(), STANDARD, 130) == 0 && text_now()[130] == 0x55, "the standard text of 41 bytes");
    expect_written(129, 378, 0, 378, "129 bytes take 378 characters");
    expect(memcmp(text_now() + 352, ":0100800080FF\n" END "\n", 26) == 0, "a last record of one byte");
    expect_written(129, 377, 8, 0, "room for 377");
    expect_written(129, 0, 8, 0, "no room");
    expect_written(48, 144, 0, 144, "three records of 16 and no fourth");
    expect_written(4096, 11276, 0, 11276, "4096 bytes take 11276 characters");
    expect_written(4096, 11275, 8, 0, "room for 11275");
    expect_written(40, 200, 7, 0, "40 bytes are too few");
    expect_written(4097, 20000, 7, 0, "4097 bytes are too many");
    expect_written(0, 200, 7, 0, "no byte");
    expect_written(40, 0, 7, 0, "too few bytes and no room");
    expect_written(4097, 0, 7, 0, "too many bytes and no room");
}

void worked_cases(void)
{
    good_texts();
    malformed_lines();
    other_refusals();
    several_refusals();
    sizes();
    long_records();
    known_lines();
    writing();
}
