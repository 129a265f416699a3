#include "room.h"
#include "galliumtoad_heap.h"

/* as the library calls it: a board without a C library has no <string.h> */
void *memset(void *at, int byte, size_t n);

/* before each slot: how many bytes it has, and whether it is in use */
struct head {
    uint32_t size, is_used;
    uint64_t unused;
};

/* A compiler must read which function this is, so it can't leave the call out. */
static void *(*const volatile wipe)(void *, int, size_t) = memset;

static gt_room *entered;
/* the value of `at` if there is no slot */
static char nothing;

static struct head *slot(const gt_room *room, size_t number)
{
    unsigned char *at = room->slots;
    if (number > 0)
        at += sizeof(struct head) + room->first + (number - 1) * (sizeof(struct head) + room->each);
    return (struct head *)(void *)at;
}

int32_t gt_room_begin(gt_room *room, enum gt_room_kind kind, void *bytes, size_t size,
                      size_t longest)
{
    size_t i;
    if (room == NULL || bytes == NULL)
        return GT_NULL;
    /* a sum below may be too large for a size */
    if (longest > size || size < GT_ROOM_OF(kind, longest))
        return GT_MEMORY;
    wipe(bytes, 0, size);
    room->slots = (unsigned char *)bytes + (16 - (uintptr_t)bytes % 16) % 16;
    room->count = GT_ROOM_COUNT_(kind);
    room->first = GT_ROOM_FIRST_(kind, longest);
    room->each = GT_ROOM_EACH_(kind, longest);
    for (i = 0; i < room->count; i++)
        slot(room, i)->size = (uint32_t)(i == 0 ? room->first : room->each);
    gt_room_enter(room);
    return GT_OK;
}

void gt_room_enter(gt_room *room)
{
    entered = room;
}

/* Takes the last slot that is free and large enough: the first is the largest. */
gt_taken rattle_alloc(size_t size, size_t align)
{
    gt_taken taken = { false, &nothing };
    size_t i = entered == NULL ? 0 : entered->count;
    (void)align; /* 16 is the strictest that the library requests */
    while (i-- > 0) {
        struct head *head = slot(entered, i);
        if (head->is_used || head->size < size)
            continue;
        head->is_used = 1;
        taken.some = true;
        taken.at = head + 1;
        return taken;
    }
    return taken;
}

/* A block stays where it is, since all other slots have the same size. */
gt_taken rattle_realloc(void *block, size_t kept, size_t size, size_t align)
{
    gt_taken taken = { false, block };
    const struct head *head = (struct head *)block - 1;
    (void)align;
    if (size > head->size)
        return taken;
    wipe((unsigned char *)block + kept, 0, head->size - kept);
    taken.some = true;
    return taken;
}

void rattle_dealloc(void *block)
{
    struct head *head = (struct head *)block - 1;
    wipe(block, 0, head->size);
    head->is_used = 0;
}
