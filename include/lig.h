/*
 * lig.h: the six calls of Figalonga, the order reader, for C99 and C++ on x86-64 with the System V
 * calling convention.
 *
 * A card holds a nursery's words and the rules by which they make orders. A line is what a shift
 * leader types. A plan is a derivation of the line, step by step. Its pairs are the places in the
 * line that belong together: from them a controller sets its registers. A sheet is many lines.
 *
 *     lig_card_check   Is this a card?
 *     lig_read         Is this line an order under the card? Writes its chart and its plan.
 *     lig_check        Is this plan a derivation of this line?
 *     lig_pairs        Which places does this plan pair? Writes them.
 *     lig_name         Where does the card spell this word?
 *     lig_sheet        Is every line of this sheet an order? Writes the pairs of all of them.
 *
 * Link with liblig.a. Of the C library it wants memcpy and memset, and nothing else.
 *
 * What the calls ask of you; nothing on their side can see to it:
 *
 *   - A pointer points to at least as many bytes as the length after it says. They need no
 *     alignment. Those of a room can be written.
 *   - No pointer is null, not even beside a length of 0.
 *   - A room, which is a parameter that is not const, overlaps nothing else that you lend to the
 *     same call. Inputs, which are const, may overlap one another.
 *   - While a call runs, nothing else writes to what you lent it or reads its rooms: no thread, no
 *     interrupt, no device.
 *   - The stack has the bytes that "Stack and time", at the end, speaks of.
 *
 * Nothing more is asked. A card, a line, a plan and a sheet may hold any bytes and have any length,
 * and a room may be too short or empty: each call then says so by a number.
 *
 * What each call keeps to: it uses no heap and no lock, has no state, does no input or output, and
 * keeps no pointer after it has returned. So calls may run at the same time, each with rooms of its
 * own, and equal inputs with rooms of equal length always get the same answer.
 *
 * Nothing here divides, since coding rules allow no division between two valve strokes: no function
 * of the archive has a division or a remainder in its source, no instruction of it divides, be it
 * integers, floats or vectors, it calls nothing that divides, and the code of this header does not
 * either. The memcpy and memset that you link are your own. This is not proved; the gate looks at
 * the source and at the archive as it is built (tools/check-division).
 *
 * What is said below of answers and rooms is proved, for every input; docs/MAP.md says where.
 */
#ifndef LIG_H
#define LIG_H

#include <stddef.h>
#include <stdint.h>

#ifdef __cplusplus
extern "C" {
#endif

/*
 * Version
 *
 * The major number rises when a call answers or writes something else than before for some input,
 * or takes other arguments, or when a macro goes; the minor one when a call or a macro is added, or
 * a call wants more stack; the patch with any other change. So a request of document 02 that
 * changes an answer or a layout raises the major number, and one that only adds a call the minor
 * one.
 */
#define LIG_VERSION_MAJOR 5
#define LIG_VERSION_MINOR 0
#define LIG_VERSION_PATCH 0
#define LIG_VERSION "5.0.0"

/*
 * Refusals
 *
 * The number 0 says that the call did what it is for. Any other number is a refusal, and lig_mender
 * says who can mend the matter. Where several conditions hold at once, the first one in the order
 * given at each call is answered.
 */
#define LIG_OK 0

/*
 * The nursery that wrote the card. They are tried in this order, each over the whole card. 15, once
 * the number for two entries spelled alike, no longer occurs: a card may have them.
 */
#define LIG_CARD_MARK 11       /* fewer than 12 bytes, or they do not start with "LIG1" */
#define LIG_CARD_COUNTS 12     /* a count of the header is outside its limits */
#define LIG_CARD_LENGTHS 13    /* a table's offset or the card's length does not fit the counts */
#define LIG_CARD_ENTRY 14      /* a word's entry: its length, a letter or its padding is wrong */
#define LIG_CARD_PRODUCTION 16 /* a production has a wrong kind, name, word, index or zero */
#define LIG_CARD_DEAD_NAME 42  /* a nonterminal stands on the right of a production, left of none */

/* The shift leader who typed the line. They are tried in this order, NO_READING last of all. */
#define LIG_LINE_BYTE 22       /* a byte that is not a to z, 0 to 9 or a space */
#define LIG_LINE_EMPTY 21      /* no word */
#define LIG_LINE_LONG 23       /* more than LIG_MOST_WORDS words */
#define LIG_LINE_WORD 24       /* a word that no entry of the card is spelled as */
#define LIG_LINE_NO_READING 25 /* the words are known, and no derivation comes to them */
#define LIG_SHEET_LONG 41      /* a sheet of more than LIG_MOST_LINES lines; before its lines */

/* The programmer of the controller. */
#define LIG_CHART_ROOM 31  /* more items than the chart room holds */
#define LIG_PLAN_ROOM 32   /* the plan room is under LIG_PLAN_BYTES(words) bytes */
#define LIG_PAIR_ROOM 33   /* pair room under LIG_PAIR_BYTES a pair, output room under 3 a record */
#define LIG_WRONG_PLAN 34  /* the plan is no leftmost derivation of the line */
#define LIG_WORD_NUMBER 35 /* the card has no word of that number */

/* Who can mend a refusal: the tens of its number, but for 41 and 42; 0 for any other number. */
#define LIG_BY_NURSERY 1
#define LIG_BY_SHIFT_LEADER 2
#define LIG_BY_PROGRAMMER 3

static inline unsigned lig_mender(unsigned number)
{
    if (number == LIG_SHEET_LONG)
        return LIG_BY_SHIFT_LEADER;
    if (number == LIG_CARD_DEAD_NAME)
        return LIG_BY_NURSERY;
    if (number < 10 || number >= 40)
        return 0;
    if (number < 20)
        return LIG_BY_NURSERY;
    return number < 30 ? LIG_BY_SHIFT_LEADER : LIG_BY_PROGRAMMER;
}

/*
 * Sizes
 *
 * A plan of n words has 2n - 1 steps: one for each word, and n - 1 that split a stretch in two. A
 * pair takes two of those n - 1, one step that gives an index and one that takes it away, so there
 * are at most (n - 1) / 2 pairs: 11 for 24 words. (Proved, for every plan that lig_check passes:
 * passing-pairs-half in crates/layout/proofs/Packing.antt; for a sheet: output-enough in
 * crates/sheet/proofs/Fits.antt.)
 */
#define LIG_MOST_CARD_BYTES 780 /* no longer card is accepted */
#define LIG_MOST_WORDS 24       /* in a line */

#define LIG_STEP_BYTES 4
#define LIG_PLAN_BYTES(words) (LIG_STEP_BYTES * (2 * (words) - 1)) /* words: 1 or more */
#define LIG_MOST_PLAN_BYTES 188                                    /* enough for any line */

#define LIG_PAIR_BYTES 2
#define LIG_MOST_PAIRS 11
#define LIG_MOST_PAIR_BYTES 22 /* enough for any plan */

#define LIG_MOST_LINES 64          /* in a sheet */
#define LIG_SHEET_RECORD_BYTES 3   /* a line's place, and a pair */
#define LIG_MOST_SHEET_RECORDS 704 /* 11 pairs a line */
#define LIG_MOST_SHEET_OUTPUT 2112 /* room for all of them: enough for any sheet */

#define LIG_RECORD_BYTES 16
#define LIG_MOST_ITEMS 65535         /* in a chart, however long its room is */
#define LIG_MOST_CHART_BYTES 1048560 /* room for all of them; a longer room serves no better */

/*
 * The parts of an answer, from the low end: the number in the lowest 16 bits, for every call, and
 * then what belongs to the one call that is named, 16 bits each, with lig_sheet 8 bits and 20. Bits
 * that no part uses are 0.
 */
static inline unsigned lig_number(uint64_t answer)
{
    return answer & 0xFFFFu;
}

/* Of lig_read: words of the line, items of the chart, steps of the plan. */
static inline size_t lig_words(uint64_t answer)
{
    return answer >> 16 & 0xFFFFu;
}

static inline size_t lig_items(uint64_t answer)
{
    return answer >> 32 & 0xFFFFu;
}

static inline size_t lig_steps(uint64_t answer)
{
    return answer >> 48 & 0xFFFFu;
}

/* Of lig_pairs: how many pairs. */
static inline size_t lig_count(uint64_t answer)
{
    return answer >> 16 & 0xFFFFu;
}

/* Of lig_name: where the spelling starts in the card, and its length. */
static inline size_t lig_offset(uint64_t answer)
{
    return answer >> 16 & 0xFFFFu;
}

static inline size_t lig_length(uint64_t answer)
{
    return answer >> 32 & 0xFFFFu;
}

/* Of lig_sheet: the place of the line that failed, counted from 0, and how many records. */
static inline size_t lig_line(uint64_t answer)
{
    return answer >> 16 & 0xFFu;
}

static inline size_t lig_records(uint64_t answer)
{
    return answer >> 24 & 0xFFFFFu;
}

/*
 * lig_card_check: is this a card?
 *
 * Answers LIG_OK, or the first of 11, 12, 13, 14, 16, 42 whose condition holds. No part beside the
 * number. The other calls make this check themselves, before anything else.
 *
 * 42 finds a name that was misspelled in its numbering: a nonterminal that stands on the right of a
 * production of kind 1 to 6 and on the left of none. A word production, kind 0, counts on the left;
 * on its right it has a word. A production with such a name on its right takes part in no
 * derivation of any line, and without it every line has the same derivations. A nonterminal that
 * stands on no right side need not stand on a left side.
 */
uint64_t lig_card_check(const uint8_t *card, size_t card_length);

/*
 * lig_read: is this line an order under the card?
 *
 * Refusals, in this order: the card's 11 to 16, 42; the line's 22, 21, 23, 24; the rooms' 32, 31;
 * then 25. The parts of the answer and the rooms afterwards:
 *
 *     number      words   items   steps        chart room            plan room
 *     LIG_OK      n       all     2n - 1       the chart             the plan
 *     25          n       all     0            the chart             untouched
 *     31          0       0       0            zero in every byte    untouched
 *     any other   0       0       0            untouched             untouched
 *
 * LIG_OK is answered only with a derivation of the line. 25 is answered only where there is none.
 * A known line that has one is read whenever both rooms are long enough.
 *
 * Several entries of the card may be spelled alike. A word of the line then stands for each of
 * them, at each place anew: a derivation of the line ends in any list of words whose spellings are
 * the line's. Which word a place was read as stands in the plan: the production of that place's
 * word step has its number.
 *
 * Items counts the derivable items of the line, all of them, also with 25. A chart room of L bytes
 * holds L / 16 items, rounded down, and never more than 65,535; 31 says that there are more.
 *
 * The chart is one record of 16 bytes for each derivable item, each item once, however many words
 * or other steps give it:
 *
 *     byte 0       nonterminal A              byte 7        production of the recorded step
 *     byte 1       index, 0 for none          bytes 8-9     position of its side
 *     bytes 2, 3   stretch: from, to          bytes 10-11   position of its dependent
 *     byte 4       B, 255 for none            bytes 12-13   position of its continuation
 *     bytes 5, 6   stretch of B, 0 for none   bytes 14-15   zero
 *
 * An item without an index: A with an empty stack comes to the words of its stretch. An item with
 * one: A with that index on top of its stack does, and going down from A, B over its own stretch is
 * where the index is gone first. A position counts records from 0 and has its low byte first; 65535
 * stands for none, which is so three times for a word, and for a continuation unless the step gives
 * an index.
 *
 * The plan is steps of four bytes, each replacing the leftmost nonterminal: production, from,
 * split, to. The nonterminal comes to the words between from and to, and the first element of the
 * production to those up to split; a word's step has split = to.
 *
 * Nothing of the plan is free. Where a line has several derivations the plan is the first of all:
 * plans are compared step by step from the left, by production number and then by split, and of
 * the first step in which two differ the lower number decides. Equal productions of a card are told
 * apart by their number, and so are words that are spelled alike by that of their production. So
 * equal cards and lines get equal plans and pairs, from every controller. lig_check passes the plan,
 * as it passes any other derivation of the line.
 *
 * The bytes of a room past its chart or plan are untouched.
 *
 * Free, so rely on no more than is said here:
 *   - the order of the records; each stands after those that it names
 *   - which step a record holds where several derive its item; it is one that does
 *   - which item of its dependent's stretch a taking step names; a plan need not go on there
 */
uint64_t lig_read(const uint8_t *card, size_t card_length,
                  const uint8_t *line, size_t line_length,
                  uint8_t *chart, size_t chart_length,
                  uint8_t *plan, size_t plan_length);

/*
 * lig_check: is this plan a derivation of this line?
 *
 * The plan is all plan_length bytes: pass LIG_STEP_BYTES * steps, not the length of its room. It
 * may come from anywhere. Answers LIG_OK exactly where its steps in their order, each replacing the
 * leftmost nonterminal, derive the line and every from, split and to is right; the word of a step
 * may be any that is spelled as the line's word at that place. Else the first of: the card's
 * 11 to 16, 42; the line's 22, 21, 23, 24; 34. No part beside the number.
 */
uint64_t lig_check(const uint8_t *card, size_t card_length,
                   const uint8_t *line, size_t line_length,
                   const uint8_t *plan, size_t plan_length);

/*
 * lig_pairs: which places does this plan pair?
 *
 * Refusals, in this order: those of lig_check, for the same bytes; then 33. With LIG_OK the answer
 * has the count, and the pair room starts with that many pairs; its further bytes are untouched.
 * With a refusal the count is 0 and the room is untouched.
 *
 * There is one pair for each step that gives an index, in the order of the plan. Its two bytes are
 * places in the line, counted from 0: the last word of that step's side, and the last word of the
 * side of the step that takes this very index away. The side of a step is the element that is not
 * the dependent: its last word is at split - 1 where it stands first, and at to - 1 where it stands
 * last. It has at least one word, so both places are words of the line. Of "coir 14 takes mild",
 * where a row is a kind and a number, the pair is 1 and 3: the row's number, and its feed. Nothing
 * here is free.
 */
uint64_t lig_pairs(const uint8_t *card, size_t card_length,
                   const uint8_t *line, size_t line_length,
                   const uint8_t *plan, size_t plan_length,
                   uint8_t *pairs, size_t pairs_length);

/*
 * lig_name: where does the card spell this word?
 *
 * The word is given by its number, which counts the words of the card from 0. Words that are
 * spelled alike have numbers of their own, and each is answered with its own entry. For the word
 * that a place of a line is read as, examples/line-by-line.c shows how its number is found in the
 * plan.
 *
 * Refusals, in this order: the card's 11 to 16, 42; then 35, for a number that is not below the
 * card's count of words. With LIG_OK the spelling is lig_length bytes, 1 to 11, from
 * card + lig_offset on: the card's own bytes, with no zero behind them to rely on. With a refusal
 * both parts are 0.
 */
uint64_t lig_name(const uint8_t *card, size_t card_length, size_t word);

/*
 * lig_sheet: is every line of this sheet an order under the card?
 *
 * The lines are ended by hex 0A, the last one with or without it, so "a" and "a\n" have one line,
 * "a\n\n" has two, the second empty, and a sheet of no bytes has none. Each line is read as
 * lig_read reads it, in order, with the chart room lent here and with plan room of the call's own:
 * 32 does not occur. The first line that is not read ends it, and an empty one is not. Only where
 * all are read are records written.
 *
 * Refusals, in this order: the card's 11 to 16, 42; 41; the number that lig_read has for the first
 * line that is not read, one of 22, 21, 23, 24, 31, 25; then 33, where the output room is under
 * LIG_SHEET_RECORD_BYTES bytes for each record.
 *
 *     number          line        records   chart room              output room
 *     LIG_OK          0           all       as the reads left it    the records
 *     33              0           0         as the reads left it    untouched
 *     21 to 25, 31    its place   0         as the reads left it    untouched
 *     11 to 16, 42    0           0         untouched               untouched
 *     41              0           0         untouched               untouched
 *
 * "As the reads left it": each read does with the chart room what lig_read says, from where the
 * read before left it, the one that fails included; no line after that one is read. So with 31 the
 * chart room is zero in every byte.
 *
 * There is a record for each pair of each line, in the order of the lines and then of the pairs:
 * the line's place, counted from 0, and the two bytes of the pair, each the last word of a side, as
 * lig_pairs has them. The bytes past the records are untouched. A sheet of no lines is accepted,
 * with no records. Where entries are spelled alike, a record does not say which word a place was
 * read as. If that matters, read line by line: the plan that lig_read writes says it.
 *
 * A line's pairs are those of its first plan, the one that lig_read writes. So number, line, records
 * and every byte of the output room are decided by card, sheet and the rooms' lengths. Free is only
 * what is free with lig_read: the chart that a read leaves.
 */
uint64_t lig_sheet(const uint8_t *card, size_t card_length,
                   const uint8_t *sheet, size_t sheet_length,
                   uint8_t *chart, size_t chart_length,
                   uint8_t *output, size_t output_length);

/*
 * Stack and time
 *
 * Bytes of stack that each call wants, measured and not proved. tools/stack-use runs the calls on a
 * painted stack, for many cards and lines of every length. The most that it saw, the return address
 * and the arguments on the stack included:
 *
 *     line of        1 to 6 words   7 to 12 words   13 to 24 words
 *     lig_card_check      104             104             104
 *     lig_read         15,992          15,992          50,712
 *     lig_read/few     15,992          15,992          23,704
 *     lig_check           904             904             904
 *     lig_pairs           984             984             984
 *     lig_name            120             120             120
 *     lig_sheet        18,392          18,392          53,112
 *     lig_sheet/few    18,392          18,392          26,104
 *
 * lig_read/few and lig_sheet/few are these calls with a card of at most 6 nonterminals. Of a sheet
 * the longest line counts, and not how many lines there are. For a line that it refuses under an
 * accepted card, with another number than 31, lig_read took less than 1,000. lig_sheet takes 2,400
 * more than lig_read, in every column: it keeps the records of all lines until the last line is
 * read. The figures below have at least 128 bytes to spare, as much as a function may use below the
 * stack pointer. Interrupts that run on the same stack come on top.
 *
 * Nanoseconds that each call took, measured and not promised. make bench runs the calls on many
 * cards and lines. The longest median that one run saw, on two cores of a virtual machine (AMD
 * EPYC) with nothing else running, and the workload that took it:
 *
 *     lig_card_check          261   limits, 780 bytes
 *     lig_read         25,243,572   worst found, 24 words
 *     lig_check             1,695   limits, 23 words
 *     lig_pairs             1,942   limits, 23 words
 *     lig_name                266   limits, 780 bytes
 *     lig_sheet        26,791,983   sheet of 64: ambiguous, 24 words
 *
 * "limits" is a card at its limits; "worst found" is the card and line, of 62,469 items, on which a
 * search found lig_read slowest. lig_sheet takes about as long as lig_read takes for all of its
 * lines: 64 lines like that one were not timed. Another machine, card or line may take longer. With
 * a shorter chart room lig_read ends sooner where there are more items than it holds.
 * docs/PERFORMANCE.md has the times of all workloads.
 */
#define LIG_STACK_CARD_CHECK 256
#define LIG_STACK_READ 65792
#define LIG_STACK_READ_FEW 38784 /* with a card of at most 6 nonterminals */
#define LIG_STACK_CHECK 1408
#define LIG_STACK_PAIRS 1536
#define LIG_STACK_NAME 512
#define LIG_STACK_SHEET 68352
#define LIG_STACK_SHEET_FEW 41344 /* with a card of at most 6 nonterminals */

#ifdef __cplusplus
}
#endif

#endif
