/* Tests the functions for memory of heap.c and of arena.c. The linker replaces malloc and free in
 * heap.c, so the tests also see a wipe that the compiler left out. arena.c is included, so that the
 * tests see its whole array. */
#include "galliumtoad_heap.h"
#include "check.h"
#include "wrapped_heap.h"

#define rattle_alloc arena_alloc
#define rattle_realloc arena_realloc
#define rattle_dealloc arena_dealloc
#define GT_ARENA_SIZE 65536
void rattle_dealloc(void *block);
#include "arena.c"
#undef rattle_alloc
#undef rattle_realloc
#undef rattle_dealloc

static size_t heap_used(void) { return taken; }

/* Freed blocks that were not wiped. */
static size_t heap_left(unsigned char byte) {
    (void)byte;
    return not_wiped;
}

/* Places where the arena has this byte eight times in a row. */
static size_t arena_left(unsigned char byte) {
    size_t i, row = 0, found = 0;
    for (i = 0; i < sizeof arena.bytes; i++) {
        row = arena.bytes[i] == byte ? row + 1 : 0;
        found += row == 8;
    }
    return found;
}

static const struct heap {
    gt_taken (*alloc)(size_t size, size_t align);
    gt_taken (*realloc)(void *block, size_t kept, size_t size, size_t align);
    void (*dealloc)(void *block);
    size_t (*used)(void), (*left)(unsigned char byte);
} HEAPS[] = {
    { rattle_alloc, rattle_realloc, rattle_dealloc, heap_used, heap_left },
    { arena_alloc, arena_realloc, arena_dealloc, gt_arena_used, arena_left }
};

/* A block that grows or shrinks keeps its bytes, and the old block is wiped whole. */
static void a_block_that_changes(const struct heap *of, size_t from, size_t kept, size_t to) {
    gt_taken old = of->alloc(from, 8), next;
    size_t i, same = 0;
    CHECK(old.some, 1);
    CHECK((uintptr_t)old.at % 16, 0);
    memset(old.at, 0xFA, from);
    next = of->realloc(old.at, kept, to, 16);
    CHECK(next.some, 1);
    CHECK((uintptr_t)next.at % 16, 0);
    CHECK(of->used() >= to && of->used() < to + 64, 1);
    for (i = 0; i < kept; i++) same += ((unsigned char *)next.at)[i] == 0xFA;
    CHECK(same, kept);
    memset(next.at, 0xFB, to);
    CHECK(of->left(0xFA), 0);
    of->dealloc(next.at);
    CHECK(of->left(0xFB), 0);
    CHECK(of->used(), 0);
}

static void wants_memory(gt_taken got) {
    CHECK(got.some, 0);
    CHECK(got.at != NULL, 1);
}

/* If memory runs out, or the size is too large for any block, a block stays as it was. */
static void want_of_memory(const struct heap *of) {
    gt_taken block = of->alloc(3, 1);
    const size_t used = of->used();
    CHECK(block.some, 1);
    memcpy(block.at, "\x01\x02\x03", 3);
    wants_memory(of->alloc(SIZE_MAX, 1));
    wants_memory(of->alloc(SIZE_MAX - 15, 1));
    wants_memory(of->realloc(block.at, 3, SIZE_MAX, 1));
    refused = requests + 1;
    wants_memory(of->alloc(GT_ARENA_SIZE, 1));
    refused = requests + 1;
    wants_memory(of->realloc(block.at, 3, GT_ARENA_SIZE, 1));
    CHECK_BYTES(block.at, "\x01\x02\x03", 3);
    CHECK(of->used(), used);
    of->dealloc(block.at);
    CHECK(of->used(), 0);
}

/* After all blocks are freed, one block can take nearly the whole array. */
static void all_of_the_arena(void) {
    gt_taken all;
    CHECK(gt_arena_peak() > 1000 && gt_arena_peak() <= GT_ARENA_SIZE, 1);
    all = arena_alloc(GT_ARENA_SIZE - HEAD, 16);
    CHECK(all.some, 1);
    CHECK(gt_arena_used(), GT_ARENA_SIZE);
    CHECK(arena_alloc(1, 1).some, 0);
    arena_dealloc(all.at);
    CHECK(gt_arena_used(), 0);
}

int main(void) {
    size_t i;
    for (i = 0; i < sizeof HEAPS / sizeof *HEAPS; i++) {
        a_block_that_changes(&HEAPS[i], 11, 11, 16384);
        a_block_that_changes(&HEAPS[i], 16384, 11, 16);
        a_block_that_changes(&HEAPS[i], 24, 0, 48);
        want_of_memory(&HEAPS[i]);
        CHECK(HEAPS[i].left(0xFA), 0);
    }
    all_of_the_arena();
    return check_result("memory_blocks");
}
