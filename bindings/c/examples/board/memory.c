/* What the library wants from outside, where there is no C library. */
#include <stddef.h>
#include <stdint.h>

void *memcpy(void *to, const void *from, size_t n);
void *memmove(void *to, const void *from, size_t n);
void *memset(void *to, int byte, size_t n);

void *memcpy(void *to, const void *from, size_t n)
{
    uint8_t *at = to;
    const uint8_t *source = from;
    while (n-- > 0)
        *at++ = *source++;
    return to;
}

void *memmove(void *to, const void *from, size_t n)
{
    uint8_t *at = to;
    const uint8_t *source = from;
    if (at < source)
        return memcpy(to, from, n);
    while (n-- > 0)
        at[n] = source[n];
    return to;
}

void *memset(void *to, int byte, size_t n)
{
    uint8_t *at = to;
    while (n-- > 0)
        *at++ = (uint8_t)byte;
    return to;
}
