/* The library's memory from a static array: first fit over a list of blocks in order of place. A
 * freed block is wiped, and joined with free neighbours. */
#include "arena.h"
#include "galliumtoad_heap.h"

#include <stdint.h>

#ifndef GT_ARENA_SIZE
#define GT_ARENA_SIZE 32768
#endif

/* from outside, as the library calls them: a board without a C library has no <string.h> */
void *memcpy(void *to, const void *from, size_t n);
void *memset(void *at, int byte, size_t n);

/* Blocks and what is before each are multiples of this many bytes, the strictest alignment of
 * 64-bit targets. On 32-bit ones 8 would do. */
#define UNIT ((size_t)16)
#ifdef __GNUC__
#define AT_A_UNIT __attribute__((aligned(16)))
#else
#define AT_A_UNIT
#endif

struct block {
    size_t size; /* bytes after this head */
    struct block *next;
    bool used;
};

#define HEAD ((sizeof(struct block) + UNIT - 1) / UNIT * UNIT)

/* without the attribute, with the alignment of a long double: a unit on 64-bit targets */
static union {
    unsigned char bytes[GT_ARENA_SIZE];
    long double alignment;
} arena AT_A_UNIT;

/* A compiler must read which function this is, so it can't leave the call out. */
static void *(*const volatile wipe)(void *, int, size_t) = memset;

static struct block *first;
static size_t used_now, used_most;

size_t gt_arena_used(void)
{
    return used_now;
}

size_t gt_arena_peak(void)
{
    return used_most;
}

static unsigned char *content(struct block *block)
{
    return (unsigned char *)block + HEAD;
}

static void begin(void)
{
    first = (struct block *)(void *)arena.bytes;
    first->size = (sizeof arena.bytes - HEAD) / UNIT * UNIT;
    first->next = NULL;
    first->used = false;
}

/* Cuts off the part of a block beyond `size`, if that is enough for a block of its own. */
static void cut(struct block *block, size_t size)
{
    struct block *rest;
    if (block->size < size + HEAD + UNIT)
        return;
    rest = (struct block *)(void *)(content(block) + size);
    rest->size = block->size - size - HEAD;
    rest->next = block->next;
    rest->used = false;
    block->size = size;
    block->next = rest;
}

static gt_taken take(size_t wanted)
{
    struct block *block;
    gt_taken none = { false, NULL }, some = { true, NULL };
    size_t size;
    none.at = arena.bytes;
    if (first == NULL)
        begin();
    if (wanted > sizeof arena.bytes)
        return none;
    size = (wanted + UNIT - 1) / UNIT * UNIT;
    for (block = first; block != NULL; block = block->next) {
        if (block->used || block->size < size)
            continue;
        cut(block, size);
        block->used = true;
        used_now += block->size + HEAD;
        if (used_now > used_most)
            used_most = used_now;
        some.at = content(block);
        return some;
    }
    return none;
}

gt_taken rattle_alloc(size_t size, size_t align)
{
    return take(size != 0 ? size : align);
}

gt_taken rattle_realloc(void *block, size_t kept, size_t size, size_t align)
{
    gt_taken moved = take(size != 0 ? size : align);
    if (moved.some) {
        memcpy(moved.at, block, kept < size ? kept : size);
        rattle_dealloc(block);
    }
    return moved;
}

void rattle_dealloc(void *at)
{
    struct block *block = (struct block *)(void *)((unsigned char *)at - HEAD);
    wipe(at, 0, block->size);
    block->used = false;
    used_now -= block->size + HEAD;
    for (block = first; block != NULL; block = block->next) {
        while (!block->used && block->next != NULL && !block->next->used) {
            block->size += HEAD + block->next->size;
            block->next = block->next->next;
        }
    }
}
