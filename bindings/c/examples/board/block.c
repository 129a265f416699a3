#include "block.h"

/* the bytes of the front, whose last is LEN, and of the check (LRC) */
enum { FRONT = 3, CHECK = 1 };

enum line_result block_receive(struct block *block, uint64_t wait, uint64_t cwt)
{
    block->n = 0;
    while (block->n < FRONT || block->n < (size_t)block->bytes[FRONT - 1] + FRONT + CHECK) {
        enum line_result result;
        if (block->n == sizeof block->bytes)
            return LINE_WELL; /* LEN is FF: no block; the library refuses it */
        result = line_receive(&block->bytes[block->n], block->n == 0 ? wait : cwt);
        if (result == LINE_WRONG)
            line_drop(cwt);
        if (result != LINE_WELL)
            return result;
        block->n++;
    }
    return LINE_WELL;
}
