/*
 * Each call at its limits: the answers, and what the rooms hold afterwards.
 *
 *     limits TOMATO ROWS
 *
 * Meant for the tomato card and the rows card. The rooms are lent out of the middle of larger areas
 * that are filled with one byte, so that a byte written outside a room would be seen too.
 */
#include <stdio.h>
#include <string.h>

#include "lig.h"
#include "shared.h"

enum { FILL = 0xA5, MARGIN = 16, AREA = 4096, SHEET_ROOM = 8192 };

static uint8_t card[LIG_MOST_CARD_BYTES];
static size_t card_length;
static uint8_t chart_area[AREA];
static uint8_t plan_area[AREA];
static uint8_t pair_area[AREA];
static uint8_t output_area[AREA];

static const uint8_t *bytes_of(const char *text)
{
    return (const uint8_t *)text;
}

static int all_are(const uint8_t *bytes, size_t count, uint8_t value)
{
    while (count > 0 && bytes[count - 1] == value)
        count--;
    return count == 0;
}

/* What has become of a room of this length in the middle of its area. */
static void print_room(const char *name, const uint8_t *area, size_t length)
{
    const uint8_t *room = area + MARGIN;
    size_t written = length;
    while (written > 0 && room[written - 1] == FILL)
        written--;
    printf(", %s room ", name);
    if (!all_are(area, MARGIN, FILL) || !all_are(room + length, AREA - MARGIN - length, FILL))
        printf("OVERRUN");
    else if (written == 0)
        printf("untouched");
    else if (all_are(room, length, 0))
        printf("zero");
    else
        printf("%zu of %zu bytes written", written, length);
}

static uint64_t try_read(const char *line, size_t chart_length, size_t plan_length)
{
    memset(chart_area, FILL, sizeof chart_area);
    memset(plan_area, FILL, sizeof plan_area);
    uint64_t answer = lig_read(card, card_length, bytes_of(line), strlen(line),
                               chart_area + MARGIN, chart_length, plan_area + MARGIN, plan_length);
    printf("read \"%s\", %zu, %zu: %u, %zu words, %zu items, %zu steps", line, chart_length,
           plan_length, lig_number(answer), lig_words(answer), lig_items(answer),
           lig_steps(answer));
    print_room("chart", chart_area, chart_length);
    print_room("plan", plan_area, plan_length);
    printf("\n");
    return answer;
}

static void read_limits(void)
{
    try_read("", 80, 20);
    try_read("coir takes Mild", 80, 20);
    try_read("coir gives mild", 80, 20);
    try_read("takes", 16, 4);
    try_read("takes", 15, 4);
    try_read("takes", 0, 4);
    try_read("takes", 0, 3);
    try_read("mild mild", 31, 12);
    try_read("mild mild", 40, 13);
    try_read("coir takes mild", 79, 20);
    try_read("coir takes mild", 80, 19);
    try_read("coir takes mild", 79, 19);
    try_read("coir takes mild", 100, 30);
    try_read("coir takes mild", 80, 20);
}

/*
 * lig_check and lig_pairs on a copy of the plan that try_read left last, with one byte changed. The
 * answer is that of lig_pairs.
 */
static uint64_t try_plan(const char *line, size_t plan_length, size_t at, uint8_t value,
                         size_t pairs_length)
{
    uint8_t plan[LIG_MOST_PLAN_BYTES];
    memcpy(plan, plan_area + MARGIN, sizeof plan);
    plan[at] = value;
    memset(pair_area, FILL, sizeof pair_area);
    uint64_t check = lig_check(card, card_length, bytes_of(line), strlen(line), plan, plan_length);
    uint64_t found = lig_pairs(card, card_length, bytes_of(line), strlen(line), plan, plan_length,
                               pair_area + MARGIN, pairs_length);
    printf("plan of %zu bytes, byte %zu is %u, for \"%s\": check %u; pairs %u, count %zu",
           plan_length, at, value, line, lig_number(check), lig_number(found), lig_count(found));
    print_room("pair", pair_area, pairs_length);
    printf("\n");
    return found;
}

static void plan_limits(void)
{
    try_plan("coir takes mild", 20, 0, 7, 2);
    try_plan("coir takes mild", 20, 0, 7, 5);
    try_plan("coir takes mild", 20, 0, 7, 1);
    try_plan("coir takes mild", 20, 0, 8, 1);
    try_plan("coir takes mild", 20, 0, 255, 2);
    try_plan("coir takes mild", 20, 2, 2, 2);
    try_plan("coir takes mild", 20, 3, 4, 2);
    try_plan("coir takes mild", 19, 0, 7, 2);
    try_plan("coir takes mild", 24, 0, 7, 2);
    try_plan("coir takes mild", 16, 0, 7, 2);
    try_plan("coir takes mild", 0, 0, 7, 0);
    try_plan("coir takes rich", 20, 0, 7, 2);
    try_plan("coir takes", 20, 0, 7, 2);
    try_plan("coir gives mild", 20, 0, 8, 2);
    try_plan("", 20, 0, 8, 2);
}

static void try_name(size_t word)
{
    uint64_t answer = lig_name(card, card_length, word);
    printf("name %zu: %u, offset %zu, length %zu, \"%.*s\"\n", word, lig_number(answer),
           lig_offset(answer), lig_length(answer), (int)lig_length(answer),
           (const char *)card + lig_offset(answer));
}

/* Ends of lines are shown as in C. */
static void print_text(const char *text)
{
    putchar('"');
    for (; *text != '\0'; text++)
        if (*text == '\n')
            printf("\\n");
        else
            putchar(*text);
    putchar('"');
}

/* lig_sheet on so many copies of a text with another one behind them. */
static uint64_t try_copies(size_t copies, const char *text, const char *last, size_t chart_length,
                           size_t output_length)
{
    static uint8_t sheet[SHEET_ROOM];
    size_t length = 0;
    for (size_t k = 0; k < copies; k++, length += strlen(text))
        memcpy(sheet + length, text, strlen(text));
    memcpy(sheet + length, last, strlen(last));
    length += strlen(last);
    memset(chart_area, FILL, sizeof chart_area);
    memset(output_area, FILL, sizeof output_area);
    uint64_t answer = lig_sheet(card, card_length, sheet, length, chart_area + MARGIN, chart_length,
                                output_area + MARGIN, output_length);
    printf("sheet ");
    if (copies > 0) {
        printf("%zu times ", copies);
        print_text(text);
        printf(" and ");
    }
    print_text(last);
    printf(", %zu, %zu: %u, line %zu, %zu records", chart_length, output_length,
           lig_number(answer), lig_line(answer), lig_records(answer));
    print_room("chart", chart_area, chart_length);
    print_room("output", output_area, output_length);
    printf("\n");
    return answer;
}

static uint64_t try_sheet(const char *text, size_t chart_length, size_t output_length)
{
    return try_copies(0, "", text, chart_length, output_length);
}

/* No line, one and two: where a line ends, and which of them fails. */
static void few_lines(void)
{
    try_sheet("", 0, 0);
    try_sheet("", 80, 3);
    try_sheet("\n", 80, 3);
    try_sheet("  ", 80, 3);
    try_sheet("coir takes mild", 80, 3);
    try_sheet("coir takes mild\n", 80, 3);
    try_sheet("coir takes mild\n\n", 80, 6);
    try_sheet("\ncoir takes mild", 80, 6);
    try_sheet("coir takes mild\nTakes", 80, 6);
    try_sheet("coir takes mild\ncoir gives mild", 80, 6);
    try_sheet("coir takes mild\ntakes", 80, 6);
    try_sheet("coir takes mild\ntakes\n\n", 80, 6);
    try_sheet("coir takes mild\ntakes", 80, 2);
}

/* The chart room and the output room: 31 is answered at its line, 33 only after all of them. */
static void sheet_rooms(void)
{
    const char *two = "coir takes mild\ncoir wool takes mild rich\n";
    try_sheet(two, 79, 9);
    try_sheet(two, 80, 9);
    try_sheet(two, 143, 8);
    try_sheet(two, 144, 8);
    try_sheet(two, 144, 0);
    try_sheet(two, 144, 9);
    try_sheet(two, 200, 20);
    try_sheet("coir wool takes mild rich\ncoir takes mild", 144, 9);
}

/* As many lines as there may be and one more, and as many records as there may be. */
static void many_lines(void)
{
    const char *eleven = "coir coir coir coir coir coir coir coir coir coir coir takes "
                         "mild mild mild mild mild mild mild mild mild mild mild\n";
    try_copies(64, "coir takes mild\n", "", 80, 192);
    try_copies(63, "coir takes mild\n", "coir takes mild", 80, 191);
    try_copies(63, "coir takes mild\n", "takes", 80, 192);
    try_copies(64, "coir takes mild\n", "coir takes mild", 80, 195);
    try_copies(65, "coir takes mild\n", "", 80, 195);
    try_copies(64, "Takes\n", "", 80, 192);
    try_copies(64, "Takes\n", "\n", 80, 192);
    try_copies(64, eleven, "", 2000, LIG_MOST_SHEET_OUTPUT);
    try_copies(64, eleven, "", 2000, LIG_MOST_SHEET_OUTPUT - 1);
}

/*
 * All six calls on a card that is cut to a length and has one byte changed. The line, the plan, the
 * word's number and the sheet are wrong too, but the card's refusal comes first.
 */
static void try_card(size_t length, size_t at, uint8_t value)
{
    const uint8_t *bad = bytes_of("Takes");
    uint8_t right = card[at], ends[LIG_MOST_LINES + 1];
    card[at] = value;
    memset(ends, '\n', sizeof ends);
    memset(chart_area, FILL, sizeof chart_area);
    memset(plan_area, FILL, sizeof plan_area);
    memset(pair_area, FILL, sizeof pair_area);
    memset(output_area, FILL, sizeof output_area);
    uint64_t read = lig_read(card, length, bad, 5, chart_area + MARGIN, 16, plan_area + MARGIN, 3);
    uint64_t found = lig_pairs(card, length, bad, 5, bad, 5, pair_area + MARGIN, 2);
    uint64_t sheet = lig_sheet(card, length, ends, sizeof ends, chart_area + MARGIN, 16,
                               output_area + MARGIN, 3);
    printf("card of %zu bytes, byte %zu is %u: card %u, read %u, check %u, pairs %u, name %u",
           length, at, value, lig_number(lig_card_check(card, length)), lig_number(read),
           lig_number(lig_check(card, length, bad, 5, bad, 5)), lig_number(found),
           lig_number(lig_name(card, length, SIZE_MAX)));
    printf(", sheet %u, line %zu, %zu records", lig_number(sheet), lig_line(sheet),
           lig_records(sheet));
    print_room("chart", chart_area, 16);
    print_room("plan", plan_area, 3);
    print_room("pair", pair_area, 2);
    print_room("output", output_area, 3);
    printf("\n");
    card[at] = right;
}

static void card_limits(void)
{
    try_card(138, 0, 'L');
    try_card(0, 0, 'L');
    try_card(11, 0, 'L');
    try_card(138, 3, '2');
    try_card(138, 5, 33);
    try_card(12, 0, 'L');
    try_card(137, 0, 'L');
    try_card(139, 0, 'L');
    try_card(138, 8, 13);
    try_card(138, 12, 0);
    try_card(138, 13, 'C');
    try_card(138, 71, 1);
    try_card(138, 72, 7);
    try_card(138, 137, 1);
    try_card(138, 91, 5);
}

/* As which word each place was read, from the plan that try_read left last. */
static void print_words(uint64_t answer)
{
    const uint8_t *productions = card + card[10] + 256 * card[11];
    printf("read as");
    for (size_t k = 0; k < lig_steps(answer); k++) {
        const uint8_t *production = productions + 6 * plan_area[MARGIN + LIG_STEP_BYTES * k];
        if (production[0] == 0)
            printf(" %u", production[2]);
    }
    printf("\n");
}

/*
 * The second word is spelled as the first. All calls take such a card, and a place is read as the
 * one or the other. A spelling that an entry only starts with, or that only starts with an entry,
 * is still unknown.
 */
static void two_alike(void)
{
    printf("== words 0 and 1 are both \"coir\"\n");
    memcpy(card + 24, card + 12, 12);
    try_card(138, 0, 'L');
    for (size_t word = 0; word <= 1; word++)
        try_name(word);
    print_words(try_read("coir takes rich", 96, 20));
    print_words(try_read("coir coir takes rich mild", 192, 36));
    try_read("coir takes mild", 95, 20);
    try_read("coir coir takes mild", 128, 28);
    try_read("wool takes rich", 96, 20);
    try_read("coi takes mild", 96, 20);
    try_read("coirs takes mild", 96, 20);
    print_words(try_read("coir takes mild", 96, 20));
    try_plan("coir takes mild", 20, 0, 7, 2);
    try_plan("coir takes mild", 20, 4, 1, 2);
    try_sheet("coir takes mild\ncoir takes rich", 96, 6);
    try_sheet("coir takes mild\nwool takes rich", 96, 6);
}

/*
 * Both words make the same nonterminal: there is one item for it, and a plan may say either.
 * lig_read says the first, whose production has the lower number. The other nonterminal stands on
 * no left then, so the card is refused until it stands on no right.
 */
static void two_for_one(void)
{
    printf("== both words make nonterminal 2\n");
    card[79] = card[73];
    try_card(138, 0, 'L');
    card[110] = card[73];
    card[122] = card[73];
    try_read("coir takes mild", 79, 20);
    try_read("coir takes mild", 80, 20);
    try_plan("coir takes mild", 20, 4, 0, 2);
    try_plan("coir takes mild", 20, 4, 1, 2);
    try_plan("coir takes mild", 20, 4, 2, 2);
}

/* Entries that are spelled alike hide no fault: 14, then 16. */
static void faults_beside(void)
{
    printf("== with a fault beside\n");
    try_card(138, 71, 1);
    try_card(138, 137, 1);
    printf("== with byte 137 at 1\n");
    card[137] = 1;
    try_card(138, 71, 1);
}

/* As many words as there may be, all of them "mild", and a production for the last one alone. */
static void all_alike(void)
{
    static const uint8_t header[12] = { 'L', 'I', 'G', '1', 1, 32, 0, 1, 12, 0, 140, 1 };
    static const uint8_t entry[12] = { 4, 'm', 'i', 'l', 'd' };
    static const uint8_t production[6] = { 0, 0, 31 };
    printf("== words 0 to 31 are all \"mild\", and word 31 alone has a production\n");
    memcpy(card, header, sizeof header);
    for (size_t word = 0; word < 32; word++)
        memcpy(card + 12 + 12 * word, entry, sizeof entry);
    memcpy(card + 396, production, sizeof production);
    card_length = 402;
    try_card(402, 0, 'L');
    try_name(0);
    try_name(31);
    try_name(32);
    try_read("mild", 15, 4);
    try_read("mil", 16, 4);
    try_read("milds", 16, 4);
    try_read("mild mild", 32, 12);
    print_words(try_read("mild", 16, 4));
    try_plan("mild", 4, 0, 0, 0);
    try_plan("mild", 4, 0, 1, 0);
    try_sheet("mild\nmild\n", 16, 0);
    printf("== word 0 alone has a production\n");
    card[398] = 0;
    print_words(try_read("mild", 16, 4));
}

/* The first entries of a room, one a line: so many, of so many bytes each. */
static void print_entries(const char *name, const uint8_t *area, size_t count, size_t size)
{
    const uint8_t *entry = area + MARGIN;
    for (; count > 0; count--, entry += size) {
        printf("%s", name);
        for (size_t k = 0; k < size; k++)
            printf(" %u", entry[k]);
        printf("\n");
    }
}

/* The pairs of the line's own plan, in a room that is one byte short of them and in a longer one. */
static void try_pairs(const char *line, size_t count)
{
    uint64_t answer = try_read(line, AREA - 2 * MARGIN, LIG_MOST_PLAN_BYTES);
    size_t plan_length = LIG_STEP_BYTES * lig_steps(answer);
    uint8_t first = plan_area[MARGIN];
    try_plan(line, plan_length, 0, first, LIG_PAIR_BYTES * count - 1);
    answer = try_plan(line, plan_length, 0, first, LIG_MOST_PAIR_BYTES);
    print_entries("pair", pair_area, lig_count(answer), LIG_PAIR_BYTES);
}

/*
 * On the rows card a row may have a number and a feed may be extra, so a side may have several
 * words. A pair names the last one, up to the last place that a line has.
 */
static void several_words(void)
{
    const char *two = "wool 15 takes rich\ncoir 14 wool takes mild extra rich\n";
    printf("== sides of several words\n");
    try_card(card_length, 0, 'L');
    try_pairs("coir takes mild", 1);
    try_pairs("coir 14 takes mild", 1);
    try_pairs("coir 14 takes extra mild", 1);
    try_pairs("coir 14 wool 15 takes extra mild rich", 2);
    try_pairs("coir takes extra extra extra extra extra extra extra extra extra extra extra extra "
              "extra extra extra extra extra extra extra extra extra mild", 1);
    try_read("14 takes mild", 160, 20);
    try_read("coir 14 15 takes mild", 160, 36);
    uint64_t answer = try_sheet(two, 400, 9);
    print_entries("record", output_area, lig_records(answer), LIG_SHEET_RECORD_BYTES);
}

static int load(const char *name)
{
    if (load_card(name, card, sizeof card, &card_length) == 0)
        return 0;
    fprintf(stderr, "limits: %s cannot be read\n", name);
    return -1;
}

static void tomato_card(void)
{
    read_limits();
    plan_limits();
    for (size_t word = 0; word <= 5; word++)
        try_name(word);
    try_name(SIZE_MAX);
    few_lines();
    sheet_rooms();
    many_lines();
    card_limits();
    two_alike();
    two_for_one();
    faults_beside();
    all_alike();
}

int main(int argc, char **argv)
{
    if (argc != 3) {
        fprintf(stderr, "limits: wants the names of two cards\n");
        return 2;
    }
    if (load(argv[1]) != 0)
        return 2;
    tomato_card();
    if (load(argv[2]) != 0)
        return 2;
    several_words();
    return fflush(stdout) == 0 && !ferror(stdout) ? 0 : 2;
}
