/*
 * Line by line: reads a card, then lines, and prints the registers that each line sets. This is for
 * a leader who types an order and waits for it to be obeyed; controller.c obeys a whole sheet.
 *
 *     line-by-line CARD < LINES
 *
 * All rooms are static. No register is set before every call on a line has passed, so that a line
 * that is refused changes nothing. Exit status: 0 where every line was dealt with, read or refused;
 * 1 where the card is refused; 2 where a file cannot be read or written.
 */
#include <stdio.h>

#include "lig.h"
#include "shared.h"

enum {
    LINE_ROOM = 512,     /* 24 words of 11 letters with a space between them take 287 bytes */
    CHART_ITEMS = 4000,  /* chosen for the nursery's cards; a line that wants more is refused, 31 */
    WORD_COUNT_AT = 5,   /* in a card: the byte that counts its words */
    WORDS_AT = 12,       /* in a card: the first word's entry */
    WORD_BYTES = 12,     /* of an entry */
    PRODUCTION_BYTES = 6 /* kind, nonterminal, word, .. where the kind is 0 */
};

enum input { INPUT_LINE, INPUT_TOO_LONG, INPUT_END, INPUT_FAILED };

/* One byte more than a card can have, so that a longer file is refused and not cut. */
static uint8_t card[LIG_MOST_CARD_BYTES + 1];
static size_t card_length;
static uint8_t line[LINE_ROOM];
static size_t line_length;

static uint64_t reading; /* lig_read's answer for the line */
static uint8_t chart[CHART_ITEMS * LIG_RECORD_BYTES];
static uint8_t plan[LIG_MOST_PLAN_BYTES];
static size_t plan_length;
static uint8_t pairs[LIG_MOST_PAIR_BYTES]; /* places: the last word of each side */
static size_t pairs_length;
static uint64_t names[LIG_MOST_PAIR_BYTES]; /* lig_name's answer for each place in pairs */

/*
 * The next line of standard input, without its end. A line that outgrows its room is passed over
 * as a whole, since its beginning may be an order that nobody gave.
 */
static enum input next_line(void)
{
    int byte = getchar();
    int fits = 1;
    if (byte == EOF)
        return ferror(stdin) ? INPUT_FAILED : INPUT_END;
    line_length = 0;
    while (byte != '\n' && byte != EOF) {
        fits = line_length < sizeof line;
        if (fits)
            line[line_length++] = (uint8_t)byte;
        byte = getchar();
    }
    if (ferror(stdin))
        return INPUT_FAILED;
    return fits ? INPUT_LINE : INPUT_TOO_LONG;
}

static void print_line(void)
{
    putchar('"');
    for (size_t k = 0; k < line_length; k++)
        putchar(line[k] >= 0x20 && line[k] < 0x7F ? line[k] : '?');
    printf("\"\n");
}

/* Reads the line into plan and pairs. A number of lig.h. */
static unsigned read_order(void)
{
    reading = lig_read(card, card_length, line, line_length,
                       chart, sizeof chart, plan, sizeof plan);
    if (lig_number(reading) != LIG_OK)
        return lig_number(reading);
    plan_length = LIG_STEP_BYTES * lig_steps(reading);

    /* The plan lies in memory that may fail, so it is not used before it has been checked. */
    uint64_t answer = lig_check(card, card_length, line, line_length, plan, plan_length);
    if (lig_number(answer) != LIG_OK)
        return lig_number(answer);

    answer = lig_pairs(card, card_length, line, line_length, plan, plan_length,
                       pairs, sizeof pairs);
    pairs_length = LIG_PAIR_BYTES * lig_count(answer);
    return lig_number(answer);
}

/*
 * The number of the word that a place of the line was read as. The plan, which has passed, has one
 * step for it, and the production of that step is of kind 0 and holds the number; the spelling
 * alone would not do, since the card may have it several times. Without such a step: a number that
 * lig_name refuses.
 */
static size_t word_at(uint8_t place)
{
    const uint8_t *productions = card + WORDS_AT + WORD_BYTES * card[WORD_COUNT_AT];
    for (size_t at = 0; at < plan_length; at += LIG_STEP_BYTES) {
        const uint8_t *production = productions + PRODUCTION_BYTES * plan[at];
        if (production[0] == 0 && plan[at + 1] == place)
            return production[2];
    }
    return SIZE_MAX;
}

/* Finds the name of each paired word. A number of lig.h. */
static unsigned find_names(void)
{
    for (size_t k = 0; k < pairs_length; k++) {
        names[k] = lig_name(card, card_length, word_at(pairs[k]));
        if (lig_number(names[k]) != LIG_OK)
            return lig_number(names[k]);
    }
    return LIG_OK;
}

/* A spelling has no zero at its end, so it is printed by its length. */
static void print_word(size_t k)
{
    printf("%.*s (word %u)", (int)lig_length(names[k]),
           (const char *)card + lig_offset(names[k]), pairs[k]);
}

/*
 * Here a real controller writes to its valves. A pair names the last word of each side: of the row
 * "coir 14" the 14, its number, and of the feed "extra mild" the mild.
 */
static void set_registers(void)
{
    if (pairs_length == 0)
        printf("  sets nothing\n");
    for (size_t k = 0; k < pairs_length; k += LIG_PAIR_BYTES) {
        printf("  set ");
        print_word(k);
        printf(" to ");
        print_word(k + 1);
        putchar('\n');
    }
}

static void obey_line(void)
{
    unsigned number = read_order();
    if (lig_words(reading) != 0)
        printf("  %zu words, %zu items, %zu steps\n",
               lig_words(reading), lig_items(reading), lig_steps(reading));
    if (number == LIG_OK)
        number = find_names();
    if (number == LIG_OK)
        set_registers();
    else
        print_refusal(number);
}

static int obey_lines(void)
{
    unsigned long count = 0;
    enum input input;
    while ((input = next_line()) != INPUT_END) {
        if (input == INPUT_FAILED)
            return -1;
        printf("line %lu: ", ++count);
        if (input == INPUT_LINE) {
            print_line();
            obey_line();
        } else {
            printf("refused, longer than %d bytes\n", LINE_ROOM);
        }
    }
    return 0;
}

int main(int argc, char **argv)
{
    if (argc != 2 || load_card(argv[1], card, sizeof card, &card_length) != 0) {
        fprintf(stderr, "line-by-line: wants the name of a card that can be read\n");
        return 2;
    }
    printf("lig.h %s, card: %zu bytes\n", LIG_VERSION, card_length);
    unsigned number = lig_number(lig_card_check(card, card_length));
    if (number != LIG_OK)
        print_refusal(number);
    int failed = number == LIG_OK && obey_lines() != 0;
    if (fflush(stdout) != 0 || ferror(stdout) || failed) {
        fprintf(stderr, "line-by-line: input or output failed\n");
        return 2;
    }
    return number == LIG_OK ? 0 : 1;
}
