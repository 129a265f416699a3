/* The library's memory for a play, that of arena.c. Each request is mixed into the sum, and some
 * are refused. Behind each block is a guard, which must be there at the end. */
#include "sum.h"

#define rattle_alloc arena_alloc
#define rattle_realloc arena_realloc
#define rattle_dealloc arena_dealloc
void rattle_dealloc(void *block);
#define GT_ARENA_SIZE 262144
#include "arena.c"
#undef rattle_alloc
#undef rattle_realloc
#undef rattle_dealloc

gt_taken rattle_alloc(size_t size, size_t align);
gt_taken rattle_realloc(void *block, size_t kept, size_t size, size_t align);
void rattle_dealloc(void *block);

/* The size of a block is before it, in as many bytes as keep it aligned. */
enum { FRONT = 16, GUARD = 8 };
static const uint8_t GUARDS[GUARD] = { 0xA5, 0x5A, 0x96, 0x69, 0xC3, 0x3C, 0xF0, 0x0F };
/* what a refused request has as its place */
static char nothing;

static gt_taken asked(size_t size, size_t align)
{
    gt_taken taken = { false, NULL };
    taken.at = &nothing;
    mix(size);
    mix(align);
    if (any(400) == 0) {
        count_refused();
        return taken;
    }
    taken = arena_alloc(FRONT + size + GUARD, align);
    if (!taken.some || align > 8 || (size_t)taken.at % align != 0)
        count_broken();
    memcpy(taken.at, &size, sizeof size);
    taken.at = (uint8_t *)taken.at + FRONT;
    memcpy((uint8_t *)taken.at + size, GUARDS, GUARD);
    return taken;
}

gt_taken rattle_alloc(size_t size, size_t align)
{
    return asked(size, align);
}

gt_taken rattle_realloc(void *block, size_t kept, size_t size, size_t align)
{
    gt_taken taken;
    mix(kept);
    taken = asked(size, align);
    if (taken.some) {
        memcpy(taken.at, block, kept);
        rattle_dealloc(block);
    }
    return taken;
}

void rattle_dealloc(void *block)
{
    uint8_t *whole = (uint8_t *)block - FRONT;
    size_t size, i;
    memcpy(&size, whole, sizeof size);
    mix(size);
    for (i = 0; i < GUARD; i++)
        if (whole[FRONT + size + i] != GUARDS[i])
            count_broken();
    arena_dealloc(whole);
}
