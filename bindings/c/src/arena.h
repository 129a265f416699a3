/* The library's memory from a static array, for programs without malloc: link arena.c in place of
 * heap.c. GT_ARENA_SIZE is the number of bytes of the array. One of 28 KB holds a card with a few
 * small objects and an exchange with it (examples/dialogue.c).
 *
 * It has no lock, so no two functions of the library may run at once, even if their handles differ:
 * it is for one thread, or for several that take turns. A block is wiped when it is freed. */
#ifndef GALLIUMTOAD_ARENA_H
#define GALLIUMTOAD_ARENA_H

#include <stddef.h>

#ifdef __cplusplus
extern "C" {
#endif

#ifdef __GNUC__
#pragma GCC visibility push(hidden)
#endif
/* Returns how many bytes of the array are in use now, with the cost of each block. */
size_t gt_arena_used(void);

/* Returns the most that were in use at once. */
size_t gt_arena_peak(void);
#ifdef __GNUC__
#pragma GCC visibility pop
#endif

#ifdef __cplusplus
}
#endif

#endif
