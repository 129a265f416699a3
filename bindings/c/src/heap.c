/* The library's memory from malloc and free. Blocks hold values and commands, so each is wiped
 * before it is freed. If a block grows or shrinks, its bytes move to a new block, since realloc
 * would leave the old place unwiped. */
#include "galliumtoad_heap.h"

#include <stdint.h>
#include <stdlib.h>
#include <string.h>

/* Before each block is its size, in as many bytes as keep the block aligned. */
#define HEAD ((size_t)16)

/* A compiler may leave out writes to memory that is freed next. It must read which function this is
 * each time, and so call it. */
static void *(*const volatile wipe)(void *, int, size_t) = memset;

/* the value of `at` if there is no block */
static char nothing;

gt_taken rattle_alloc(size_t size, size_t align)
{
    gt_taken taken = { false, &nothing };
    unsigned char *whole;
    (void)align; /* malloc has the strictest alignment that the library requests */
    if (size > SIZE_MAX - HEAD)
        return taken;
    whole = malloc(HEAD + size);
    if (whole == NULL)
        return taken;
    memcpy(whole, &size, sizeof size);
    taken.some = true;
    taken.at = whole + HEAD;
    return taken;
}

gt_taken rattle_realloc(void *block, size_t kept, size_t size, size_t align)
{
    gt_taken taken = rattle_alloc(size, align);
    if (taken.some) {
        memcpy(taken.at, block, kept < size ? kept : size);
        rattle_dealloc(block);
    }
    return taken;
}

void rattle_dealloc(void *block)
{
    unsigned char *whole = (unsigned char *)block - HEAD;
    size_t size;
    memcpy(&size, whole, sizeof size);
    wipe(whole, 0, HEAD + size);
    free(whole);
}
