/* What the ways of a dialogue share. */
#ifndef TALK_H
#define TALK_H

#include "sum.h"

/* The most steps of a dialogue, which may end in none. */
enum { TURNS = 60 };

extern uint8_t line[700], response[9000];

/* Disturbs a byte now and then. */
uint8_t heard(uint8_t byte);
void disturb(uint8_t *bytes, size_t n);

/* Lets the card's application do what a call of the card asks for. Returns whether it asked. */
int is_asked(gt_card *card, int32_t said);

typedef int32_t whole(gt_card *, const uint8_t *, size_t, uint8_t *, size_t, size_t *);

/* Writes the card's answer to the n bytes in `line` to `response`, by one of the calls for a whole.
 * Returns its length, or 0. */
size_t answered(gt_card *card, whole *call, size_t n);

/* Carries the command of n bytes in `line` over blocks. Returns the length of its response in
 * `response`, or 0 if the end gave up. */
size_t carried(gt_t1 *end, gt_card *card, size_t n);

#endif
