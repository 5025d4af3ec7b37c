/* What the programs share: a card's file, and the refusals of lig.h in words for a display. */
#ifndef SHARED_H
#define SHARED_H

#include <stddef.h>
#include <stdint.h>

/* 0 where the file, or as much of it as there is room for, is in the room, with its length. */
int load_card(const char *name, uint8_t *room, size_t room_length, size_t *length);

/* Who can mend it. */
const char *refusal_mender(unsigned number);

/* What is wrong. */
const char *refusal_reason(unsigned number);

/* Both, with the number, as a line of standard output. */
void print_refusal(unsigned number);

#endif
