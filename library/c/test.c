/* Answers of document 01 through the C interface, with either line end, and what happens to lent arrays that are too small. */
#include "clieop.h"

#include <stdio.h>
#include <string.h>

#define LINES 9

static const char *const example[LINES] = {
    "0001A150309CLIEOP03NACHT15011",
    "0010B0001234567890001EUR",
    "0020ASALARIS MAART",
    "0030B1000000                                   P",
    "0100A000800000015000001234567890111111110",
    "0100A000300000000255001234567890000001234",
    "0170BJ DE VRIES",
    "9990A00000000000015255003580259220000002",
    "9999A",
};

/* the example and a byte after it, how long it is, and how long its lines are */
static uint8_t file[LINES * 52 + 1];
static size_t length;
static size_t width;
static int failed;

/* the example with that line end, and line 2 with an end of its own: how many bytes that are */
static size_t fill(uint8_t *out, const char *end, const char *second)
{
    size_t filled = 0;
    for (int i = 0; i < LINES; i++) {
        char line[53];
        int bytes = snprintf(line, sizeof line, "%-50s%s", example[i], i == 1 ? second : end);
        memcpy(out + filled, line, (size_t)bytes);
        filled += (size_t)bytes;
    }
    return filled;
}

static void expect(const char *what, uint64_t got, uint64_t wanted)
{
    if (got == wanted)
        return;
    printf("%s: %llu, not %llu, where lines have %zu bytes\n", what, (unsigned long long)got, (unsigned long long)wanted, width);
    failed++;
}

/* an answer, its line and its column */
static void told(const char *what, uint64_t r, uint8_t answer, uint64_t line, uint8_t column)
{
    expect(what, CLIEOP_ANSWER(r), answer);
    expect("its line", CLIEOP_LINE(r), line);
    expect("its column", CLIEOP_COLUMN(r), column);
}

static void check(void)
{
    told("accepted", clieop_check(file, length), 0, LINES, 0);
    told("a byte after the trailer", clieop_check(file, length + 1), 11, LINES + 1, 0);
    told("cut in line 3", clieop_check(file, 2 * width + 30), 1, 3, 0);
    told("nothing", clieop_check(file, 0), 10, 1, 0);
}

/* a wrong sum of accounts in the trailer: the column is the field's */
static void column(void)
{
    uint8_t wrong[sizeof file];
    memcpy(wrong, file, sizeof wrong);
    wrong[7 * width + 32] = '3';
    told("another sum", clieop_check(wrong, length), 9, 8, 24);
}

/* a filler that is not blank, told by its first column */
static void filler(void)
{
    uint8_t wrong[sizeof file];
    memcpy(wrong, file, sizeof wrong);
    wrong[3 * width + 49] = 'X';
    told("a filler", clieop_check(wrong, length), 4, 4, 49);
}

/* an unchecked salary to an account of nine digits */
static void unchecked(void)
{
    uint8_t wrong[sizeof file];
    memcpy(wrong, file, sizeof wrong);
    memcpy(wrong + 5 * width + 31, "0111111110", 10);
    told("an ordinary account", clieop_check(wrong, length), 14, 6, 32);
}

/* the example, and with its batch a second time; a refusal leaves both numbers, whatever was closed before it */
static void totals(void)
{
    uint8_t twice[16 * 52];
    uint64_t items = 7, amount = 7;
    memcpy(twice, file, 8 * width);
    memcpy(twice + 8 * width, file + width, 8 * width);
    twice[8 * width + 20] = '2';
    told("totals and a byte after the trailer", clieop_totals(file, length + 1, &items, &amount), 11, LINES + 1, 0);
    told("totals without a trailer", clieop_totals(twice, 15 * width, &items, &amount), 10, 16, 0);
    expect("no items told", items, 7);
    expect("no amount told", amount, 7);
    told("totals", clieop_totals(file, length, &items, &amount), 0, LINES, 0);
    expect("its items", items, 2);
    expect("its amount", amount, 152550);
    told("totals of two batches", clieop_totals(twice, 16 * width, &items, &amount), 0, 16, 0);
    expect("items of both", items, 4);
    expect("amount of both", amount, 305100);
}

/* numbers and texts of 01's example */
static void item(void)
{
    uint8_t texts[169];
    uint64_t numbers[5] = {7, 7, 7, 7, 7};
    memset(texts, 7, sizeof texts);
    told("item 2", clieop_item(file, length, 1, 2, texts, sizeof texts, numbers, 5), 0, LINES, 0);
    expect("its type", numbers[0], 3);
    expect("its amount", numbers[1], 2550);
    expect("its payer", numbers[2], 123456789);
    expect("its beneficiary", numbers[3], 1234);
    expect("the number after", numbers[4], 7);
    expect("its descriptions", (uint64_t)memcmp(texts, file + 2 * width + 5, 32), 0);
    expect("its name", (uint64_t)memcmp(texts + 144, file + 6 * width + 5, 24), 0);
    for (int i = 32; i < 144; i++)
        expect("a space", texts[i], ' ');
    expect("the byte after", texts[168], 7);
}

/* a refusal; the numbers and the texts stay */
static void refused(const char *what, size_t bytes, uint64_t number, size_t room, size_t count, uint8_t answer, uint64_t line)
{
    uint8_t texts[168];
    uint64_t numbers[4] = {7, 7, 7, 7};
    memset(texts, 7, sizeof texts);
    told(what, clieop_item(file, bytes, 1, number, texts, room, numbers, count), answer, line, 0);
    for (int i = 0; i < 4; i++)
        expect("a number", numbers[i], 7);
    for (int i = 0; i < 168; i++)
        expect("a text's byte", texts[i], 7);
}

static void no_item(void)
{
    uint8_t texts[168];
    uint64_t numbers[4];
    told("batch 0", clieop_item(file, length, 0, 1, texts, sizeof texts, numbers, 4), 13, LINES, 0);
    told("batch 2", clieop_item(file, length, 2, 1, texts, sizeof texts, numbers, 4), 13, LINES, 0);
    refused("item 0", length, 0, 168, 4, 13, LINES);
    refused("item 3", length, 3, 168, 4, 13, LINES);
    refused("the file's own refusal", length + 1, 3, 168, 4, 11, LINES + 1);
}

static void small_arrays(void)
{
    refused("no room for texts", length, 1, 167, 4, 12, LINES);
    refused("no room for numbers", length, 1, 168, 3, 12, LINES);
    refused("no such item, without room for texts", length, 3, 0, 4, 13, LINES);
    refused("no such item, without room for numbers", length, 3, 168, 0, 13, LINES);
    refused("the file's own refusal, without room for texts", width, 1, 0, 4, 10, 2);
    refused("the file's own refusal, without room for numbers", width, 1, 168, 0, 10, 2);
}

/* what is written has 52 bytes a line, and is the example with 13, 10 */
static void rewrite(void)
{
    uint8_t plain[LINES * 52], out[LINES * 52 + 1];
    uint64_t written = 7;
    fill(plain, "\r\n", "\r\n");
    memset(out, 7, sizeof out);
    told("no room", clieop_rewrite(file, length, out, LINES * 52 - 1, &written), 12, LINES, 0);
    told("the file's own refusal", clieop_rewrite(file, length + 1, out, sizeof out, &written), 11, LINES + 1, 0);
    for (size_t i = 0; i < sizeof out; i++)
        expect("a byte of the room", out[i], 7);
    expect("no bytes told", written, 7);
    for (size_t room = LINES * 52; room <= sizeof out; room++) {
        memset(out, 7, sizeof out);
        written = 7;
        told("written again", clieop_rewrite(file, length, out, room, &written), 0, LINES, 0);
        expect("its bytes", written, LINES * 52);
        expect("the same lines with 13, 10", (uint64_t)memcmp(out, plain, LINES * 52), 0);
        expect("the byte after", out[LINES * 52], 7);
    }
}

/* line 2 with the other end */
static void mixed(const char *end, const char *other)
{
    uint8_t bytes[LINES * 52], texts[168], out[LINES * 52];
    uint64_t items, amount, numbers[4], written;
    size_t filled = fill(bytes, end, other);
    told("the other end", clieop_check(bytes, filled), 1, 2, 0);
    told("totals, the other end", clieop_totals(bytes, filled, &items, &amount), 1, 2, 0);
    told("an item, the other end", clieop_item(bytes, filled, 1, 2, texts, sizeof texts, numbers, 4), 1, 2, 0);
    told("written again, the other end", clieop_rewrite(bytes, filled, out, sizeof out, &written), 1, 2, 0);
}

static void with(const char *end, const char *other)
{
    length = fill(file, end, end);
    width = length / LINES;
    file[length] = 26;
    check();
    column();
    filler();
    unchecked();
    totals();
    item();
    no_item();
    small_arrays();
    rewrite();
    mixed(end, other);
}

int main(void)
{
    with("\r\n", "\n");
    with("\n", "\r\n");
    printf("%s\n", failed ? "the C interface failed" : "the C interface: passed");
    return failed != 0;
}
