/* What the other files here need of a board. cortex_m.c and aarch64.c have it, each for a board of
 * qemu. For your own board write another one. */
#ifndef BOARD_H
#define BOARD_H

#include <stdbool.h>
#include <stdint.h>

/* the ticks of the board's clock in a second */
#ifdef __aarch64__
#define BOARD_HZ 62500000u
#else
#define BOARD_HZ 25000000u
#endif

/* Sets up the clock, and the UART of the card's line: 8 bits, even parity, 2 stop bits, LINE_BAUD.
 * The UART's interrupt passes each received character to `line_take`. */
void board_begin(void);

/* Returns the time since then, in ticks. */
uint64_t board_ticks(void);

/* Whether the UART takes a character to send now, and gives it that. */
bool board_sends(uint8_t byte);

/* Prints a text somewhere else than on the line. */
void board_print(const char *text);

/* Ends the program: in qemu, it ends qemu. */
void board_end(void);

/* The program, after `board_begin`. When it returns, the board ends. */
void board_main(void);

#endif
