/* galliumtoad_heap.h: the three functions that the library takes memory with. libgalliumtoad.a
 * contains a set of them over malloc and free. A program that defines all three is linked with its
 * own.
 *
 * - rattle_alloc takes a new block, and rattle_dealloc frees one. In gt_taken `some` is true, and
 *   `at` is the block. If memory ran out `some` is false, and `at` is anything except NULL.
 * - A block is aligned to `align`, a power of two, and has `size` bytes, at least one. `align` is
 *   at most 16, and at most 8 on 32-bit targets.
 * - rattle_realloc makes a block one of `size` bytes, more or fewer than it has; it may move, and
 *   then frees the old block. `kept` is the number of bytes in use at its front: at most as many as
 *   it has, and at most `size`. It copies these, and need copy no others. If memory runs out the
 *   block stays unchanged.
 * - None of them is called from within another. None may call the library, throw or longjmp: the
 *   library has no unwind tables, and the call in progress would be lost.
 * - They are hidden: a shared library that is linked with the archive keeps its three to itself,
 *   and calls no others. Link it with `-Wl,--exclude-libs,libgalliumtoad.a`, as pkg-config and
 *   CMake do, so that it exports nothing of the archive.
 * - Whatever threads call the library call them, and another thread may give a block back than the
 *   one that took it. If several threads use handles at once, the three must be safe in several
 *   threads at once, as malloc and free are.
 * - Blocks hold values of data objects, commands and answers. The archive's own functions wipe each
 *   block before they free it, so that nothing of this stays in free memory. The library itself
 *   wipes no block. Three functions of your own must do that, for all bytes of a block, also of one
 *   that rattle_realloc moves or shortens. The stack and registers are not wiped, except the copies
 *   that gt_card_tpdu and gt_card_apdu make. */
#ifndef GALLIUMTOAD_HEAP_H
#define GALLIUMTOAD_HEAP_H

#include <stdbool.h>
#include <stddef.h>

#ifdef __cplusplus
extern "C" {
#endif

typedef struct gt_taken {
    bool some;
    void *at;
} gt_taken;

#ifdef __GNUC__
#pragma GCC visibility push(hidden)
#endif
gt_taken rattle_alloc(size_t size, size_t align);
gt_taken rattle_realloc(void *block, size_t kept, size_t size, size_t align);
void rattle_dealloc(void *block);
#ifdef __GNUC__
#pragma GCC visibility pop
#endif

#ifdef __cplusplus
}
#endif

#endif
