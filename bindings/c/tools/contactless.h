/* Whether a card has no contacts, by its answer to reset in PC/SC. */
#ifndef CONTACTLESS_H
#define CONTACTLESS_H

#include <stdbool.h>
#include <stddef.h>
#include <stdint.h>

/* A reader without contacts makes this answer up: 3B 8n 80 01, which says T=0 and T=1 (PC/SC, part
 * 3, 3.1.3.2.3). It takes whole commands at either. */
static inline bool is_contactless(const uint8_t *atr, size_t n)
{
    return n > 3 && atr[0] == 0x3B && atr[1] >> 4 == 8 && atr[2] == 0x80 && atr[3] == 0x01;
}

#endif
