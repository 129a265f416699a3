/* The line of a card: characters of an end, and the times between them. The UART's interrupt
 * fills a ring, and the program takes from it. */
#ifndef LINE_H
#define LINE_H

#include "board.h"

#include <stddef.h>

/* Before a card says otherwise an elementary time unit (etu) has 372 cycles of its clock
 * (ISO/IEC 7816-3, 8.1). */
#define LINE_BAUD 9600u
#define LINE_ETU ((uint64_t)(BOARD_HZ / LINE_BAUD))
#define LINE_ETU_CYCLES 372u

/* How much longer a wait may last than the standard says, in ticks. A simulated line has its
 * delays. */
#ifndef LINE_SLACK
#define LINE_SLACK 0u
#endif

enum line_result { LINE_WELL, LINE_SILENT, LINE_WRONG };

/* Called by the interrupt: a character, and whether it had a wrong parity, or some of those before
 * it were lost. */
void line_take(uint8_t byte, bool is_wrong);

/* How long this many etu, or cycles of the card's clock, are, in ticks. */
uint64_t line_etu(uint64_t count);
uint64_t line_cycles(uint64_t count);

/* Receives a character, which must come within this many ticks after the last one, sent or
 * received. LINE_WRONG: it came, with a wrong parity. */
enum line_result line_receive(uint8_t *byte, uint64_t wait);

/* Whether a character was received that nobody has taken. */
bool line_has_more(void);

/* Drops what was received, and what comes until nothing comes for this many ticks. */
void line_drop(uint64_t quiet);

/* Waits until `guard` etu after the last character began. Returns whether no other one was
 * received. */
bool line_is_quiet(unsigned guard);

/* Sends characters. The first begins no earlier than `guard` etu after the last one received. */
void line_send(const uint8_t *bytes, size_t n, unsigned guard);

#endif
