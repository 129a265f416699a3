/* Wraps malloc and free of heap.c for tests of memory. It lists the held blocks, and counts bytes
 * and requests. It refuses one request, and if NEXT_REFUSAL is not 0 another one so much later. It
 * looks whether each block is wiped before its end. */
#ifndef WRAPPED_HEAP_H
#define WRAPPED_HEAP_H

#include "galliumtoad.h"

#include <stdbool.h>
#include <stdlib.h>
#include <string.h>

void *__real_malloc(size_t n);
void __real_free(void *block);
void *__wrap_malloc(size_t n);
void *__wrap_realloc(void *block, size_t n);
void __wrap_free(void *block);

#ifndef NEXT_REFUSAL
#define NEXT_REFUSAL 0 /* none */
#endif

enum { SIZE_ROOM = 16 }; /* heap.c stores the size of a block before it */

/* A held block. Its bytes are behind it. */
typedef struct held_block {
    struct held_block *next, *before;
    size_t size, unused; /* malloc aligns blocks to 16 bytes */
} held_block;

static held_block *blocks;
static size_t taken, peak; /* bytes, without the needs of heap.c */
static size_t requests, refused, not_wiped;
static size_t lacks; /* calls that returned GT_MEMORY */

static inline bool lacks_memory(int32_t code) {
    lacks += code == GT_MEMORY;
    return code == GT_MEMORY;
}

/* Repeats a call that returns GT_MEMORY. */
#define GETS(call, want) do { \
        int32_t code_; \
        do code_ = (call); while (lacks_memory(code_)); \
        CHECK(code_, want); \
    } while (0)

void *__wrap_malloc(size_t n) {
    held_block *block = ++requests == refused ? NULL : __real_malloc(sizeof *block + n);
    if (!block) return refused += NEXT_REFUSAL, NULL;
    block->next = blocks;
    block->before = NULL;
    block->size = n;
    if (blocks) blocks->before = block;
    blocks = block;
    taken += n - SIZE_ROOM;
    if (taken > peak) peak = taken;
    return memset(block + 1, 0, n);
}

void __wrap_free(void *at) {
    held_block *block = (held_block *)at - 1;
    const unsigned char *bytes = (const unsigned char *)at;
    size_t i;
    for (i = 0; i < block->size && bytes[i] == 0; i++) {}
    not_wiped += i < block->size;
    taken -= block->size - SIZE_ROOM;
    if (block->next) block->next->before = block->before;
    *(block->before ? &block->before->next : &blocks) = block->next;
    __real_free(block);
}

/* heap.c must not call it, since it may move a block without a wipe. */
void *__wrap_realloc(void *block, size_t n) {
    (void)block;
    (void)n;
    abort();
}

#endif
