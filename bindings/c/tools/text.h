/* Hexadecimal digits, and texts for users. */
#ifndef TEXT_H
#define TEXT_H

#include <stdbool.h>
#include <stddef.h>
#include <stdint.h>
#include <stdio.h>

/* How many bytes the hexadecimal digits spell, in either case: at least one. 0: the text is not of
 * that kind. */
size_t text_hex_size(const char *digits);

/* The bytes of such digits, as many as `text_hex_size` says. `out` has room for them, and may be
 * the place of the digits. */
void text_hex_bytes(const char *digits, uint8_t *out);

/* Why a text is no such digits; NULL if it is. */
const char *text_hex_fault(const char *digits);

/* Replaces each byte of a character that would control a terminal by `?`. */
void text_calm(char *text);

/* Prints a text with these replaced. */
void text_print(FILE *out, const char *text);

/* Prints a mark, the bytes in hexadecimal, and the end of a line, at once. Returns NULL, or a few
 * words that say why that failed. */
const char *text_print_bytes(FILE *out, const char *mark, const uint8_t *bytes, size_t n);

/* The most bytes of a text, with its NUL. */
enum { TEXT_ROOM = 400 };

/* Each of these writes a text to its place, and returns that. A value may be the text there.
 *
 * The text of a format as of printf. */
__attribute__((format(printf, 2, 3))) const char *text_put(char place[TEXT_ROOM],
                                                           const char *format, ...);

/* `BEFORE'WORD'BEHIND`, with the first 60 bytes of the word, as `text_calm` leaves it. */
const char *text_put_quoted(char place[TEXT_ROOM], const char *before, const char *word,
                            const char *behind);

/* The same of a fault: `WHAT: 'WORD': WHY`. */
const char *text_put_fault(char place[TEXT_ROOM], const char *what, const char *word,
                           const char *why);

#endif
