/*
 * A small valve controller: reads a card and a sheet, and prints the registers that the sheet sets.
 *
 *     controller CARD < SHEET
 *
 * All rooms are static. A sheet is obeyed as a whole or not at all: where any line of it is refused
 * no register is set, not even from the lines before that one. Exit status: 0 where the sheet is
 * obeyed; 1 where the card or the sheet is refused; 2 where a file cannot be read or written.
 *
 * People count lines and words from 1, and so does what is printed; lig.h counts from 0.
 */
#include <stdio.h>

#include "lig.h"
#include "shared.h"

enum {
    CHART_ITEMS = 4000, /* chosen for the nursery's cards; a line that wants more is refused, 31 */
    LINE_ROOM = 512,    /* 24 words of 11 letters with a space between them take 287 bytes */
    SHEET_ROOM = LIG_MOST_LINES * LINE_ROOM
};

/* Bytes of the sheet: some lines, one line or one word. There is no zero at its end. */
struct text {
    const uint8_t *start;
    size_t length;
};

/* One byte more than is taken, so that a longer file is refused and not cut. */
static uint8_t card[LIG_MOST_CARD_BYTES + 1];
static size_t card_length;
static uint8_t sheet[SHEET_ROOM + 1];
static size_t sheet_length;

static uint8_t chart[CHART_ITEMS * LIG_RECORD_BYTES];
static uint8_t records[LIG_MOST_SHEET_OUTPUT];

/* 0 where standard input, or as much of it as there is room for, is in sheet. */
static int load_sheet(void)
{
    sheet_length = fread(sheet, 1, sizeof sheet, stdin);
    return ferror(stdin) ? -1 : 0;
}

/* Takes off the text before the next byte of this value, with that byte, or all where none is. */
static struct text cut(struct text *rest, uint8_t value)
{
    struct text part = { rest->start, 0 };
    while (part.length < rest->length && part.start[part.length] != value)
        part.length++;
    size_t taken = part.length < rest->length ? part.length + 1 : part.length;
    rest->start += taken;
    rest->length -= taken;
    return part;
}

/* The line at a place of the sheet, without its end. */
static struct text line_at(size_t place)
{
    struct text rest = { sheet, sheet_length };
    struct text line = cut(&rest, '\n');
    while (place-- > 0)
        line = cut(&rest, '\n');
    return line;
}

/* The word at a place of a line. Of several spaces in a row, each but the last ends no word. */
static struct text word_at(struct text line, size_t place)
{
    while (line.length > 0) {
        struct text word = cut(&line, ' ');
        if (word.length > 0 && place-- == 0)
            return word;
    }
    return line; /* it is empty; for a place in a record of lig_sheet there is a word */
}

/* A line that is refused may hold any bytes. */
static void print_line(size_t place)
{
    struct text line = line_at(place);
    printf("  line %zu: \"", place + 1);
    for (size_t k = 0; k < line.length; k++)
        putchar(line.start[k] >= 0x20 && line.start[k] < 0x7F ? line.start[k] : '?');
    printf("\"\n");
}

/*
 * The spelling is taken from the line itself: each of its words stands on the card as it is. Where
 * several entries have it, a record does not say which of them is meant: see line-by-line.c.
 */
static void print_word(struct text line, size_t place)
{
    struct text word = word_at(line, place);
    printf("%.*s (word %zu)", (int)word.length, (const char *)word.start, place + 1);
}

/*
 * Here a real controller writes to its valves. A record names the last word of each side: of the
 * row "coir 14" the 14, its number, which is what the valve needs, and of the feed "extra mild" the
 * mild. A row of one word is named by that word.
 */
static void set_registers(size_t count)
{
    printf("  accepted: %zu records\n", count);
    for (size_t k = 0; k < count; k++) {
        const uint8_t *record = records + LIG_SHEET_RECORD_BYTES * k;
        struct text line = line_at(record[0]);
        printf("  line %u: set ", record[0] + 1u);
        print_word(line, record[1]);
        printf(" to ");
        print_word(line, record[2]);
        putchar('\n');
    }
}

/* Is the refusal about one line? If not, the answer of lig_sheet has line 0, which says nothing. */
static int has_line(unsigned number)
{
    if (number == LIG_SHEET_LONG)
        return 0;
    return lig_mender(number) == LIG_BY_SHIFT_LEADER || number == LIG_CHART_ROOM;
}

/* 0 where the registers are set. */
static int obey_sheet(void)
{
    printf("sheet: ");
    if (sheet_length > SHEET_ROOM) {
        printf("refused, longer than %d bytes\n", SHEET_ROOM);
        return -1;
    }
    printf("%zu bytes\n", sheet_length);
    uint64_t answer = lig_sheet(card, card_length, sheet, sheet_length,
                                chart, sizeof chart, records, sizeof records);
    unsigned number = lig_number(answer);
    if (number == LIG_OK) {
        set_registers(lig_records(answer));
        return 0;
    }
    print_refusal(number);
    if (has_line(number))
        print_line(lig_line(answer));
    return -1;
}

int main(int argc, char **argv)
{
    if (argc != 2 || load_card(argv[1], card, sizeof card, &card_length) != 0) {
        fprintf(stderr, "controller: wants the name of a card that can be read\n");
        return 2;
    }
    printf("lig.h %s, card: %zu bytes\n", LIG_VERSION, card_length);

    /* lig_sheet checks the card too, but a card is better refused before anybody writes a sheet. */
    unsigned number = lig_number(lig_card_check(card, card_length));
    int failed = 0, refused = number != LIG_OK;
    if (refused)
        print_refusal(number);
    else if (load_sheet() != 0)
        failed = 1;
    else
        refused = obey_sheet() != 0;
    if (refused)
        printf("  no register is set\n");
    if (fflush(stdout) != 0 || ferror(stdout) || failed) {
        fprintf(stderr, "controller: input or output failed\n");
        return 2;
    }
    return refused ? 1 : 0;
}
