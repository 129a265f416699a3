/* One sum of all that the calls of a play give. It is the same on each machine, or the library
 * differs there. No C library is needed, but memcpy, memmove and memset. */
#ifndef SUM_H
#define SUM_H

#include <galliumtoad.h>

/* Returns a number below `n`, the next of a row that is the same on each machine. */
uint32_t any(uint32_t n);

/* Fills `bytes` with up to `most` bytes, and returns how many. Many mean something. */
size_t fill(uint8_t *bytes, size_t most);

/* Mixes what a call gave into the sum. */
void mix(uint64_t value);
void mix_bytes(const uint8_t *bytes, size_t n);

/* Mixes and returns the code of a call, and counts it. */
int32_t code(int32_t it);

/* Counts an answer with status 9000, a block of memory that was refused, and one that is not at a
 * multiple of what was asked for, or was written beyond its end. */
void count_answer(uint16_t status);
void count_refused(void);
void count_broken(void);

/* The parts of a play. */
void read_bytes(void);
void talk(void);
void hold_session(void);

/* Plays until `most` calls were made, once in a program. Returns a line of the sum, of what was
 * counted, and of the stack that it took. */
const char *play(uint32_t most);

#endif
