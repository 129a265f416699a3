/* What the programs need of a system, where POSIX and Windows differ: system.c has POSIX, and
 * system_windows.c has Windows. */
#ifndef SYSTEM_H
#define SYSTEM_H

#include <stdbool.h>

/* Prepares the standard descriptors. false: a program can't use them.
 *
 * POSIX: opens each closed one of 0, 1 and 2 in the wrong direction: 0 for writing, 1 and 2 for
 * reading. Otherwise the next file gets that number, and what the program prints goes into that
 * file. With it a later read or write fails.
 * Windows: they pass bytes as they are, without CR. */
bool system_begin(void);

/* Waits this many milliseconds. */
void system_pause(int milliseconds);

/* A bell that one thread rings once, for another one that waits. */
struct bell {
    int ends[2];    /* POSIX: of a pipe */
    void *event;    /* Windows */
};

/* Returns whether there is one now. */
bool bell_make(struct bell *bell);

/* Waits at most this many milliseconds, and returns whether it has rung. */
bool bell_await(const struct bell *bell, int milliseconds);

void bell_ring(struct bell *bell);

/* Frees it. It has rung, and nobody waits. */
void bell_free(struct bell *bell);

#endif
