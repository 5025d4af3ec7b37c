#include "shared.h"

#include <stdio.h>

#include "lig.h"

int load_card(const char *name, uint8_t *room, size_t room_length, size_t *length)
{
    FILE *file = fopen(name, "rb");
    if (file == NULL)
        return -1;
    *length = fread(room, 1, room_length, file);
    int failed = ferror(file);
    if (fclose(file) != 0 || failed)
        return -1;
    return 0;
}

const char *refusal_mender(unsigned number)
{
    switch (lig_mender(number)) {
    case LIG_BY_NURSERY: return "nursery";
    case LIG_BY_SHIFT_LEADER: return "shift leader";
    case LIG_BY_PROGRAMMER: return "programmer";
    default: return "nobody";
    }
}

const char *refusal_reason(unsigned number)
{
    switch (number) {
    case LIG_CARD_MARK: return "this is no card";
    case LIG_CARD_COUNTS: return "a count of the card is outside its limits";
    case LIG_CARD_LENGTHS: return "the card's length does not fit its counts";
    case LIG_CARD_ENTRY: return "a word of the card is badly written";
    case LIG_CARD_PRODUCTION: return "a production of the card is badly written";
    case LIG_CARD_DEAD_NAME: return "a name of the card is on the right of a rule and on no left";
    case LIG_LINE_BYTE: return "only a to z, 0 to 9 and spaces are allowed";
    case LIG_LINE_EMPTY: return "there is no word";
    case LIG_LINE_LONG: return "there are more than 24 words";
    case LIG_LINE_WORD: return "a word is not on the card";
    case LIG_LINE_NO_READING: return "this is not an order";
    case LIG_SHEET_LONG: return "the sheet has more than 64 lines";
    case LIG_CHART_ROOM: return "the chart room is too short";
    case LIG_PLAN_ROOM: return "the plan room is too short";
    case LIG_PAIR_ROOM: return "the room for pairs is too short";
    case LIG_WRONG_PLAN: return "the plan is not one of this line";
    case LIG_WORD_NUMBER: return "the card has no word of this number";
    default: return "unknown number";
    }
}

void print_refusal(unsigned number)
{
    printf("  refused %u (%s): %s\n", number, refusal_mender(number), refusal_reason(number));
}
