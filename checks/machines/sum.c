/* The sum, the numbers, and the play of all parts. */
#include "sum.h"

#include "arena.h"

static uint64_t seed = 0x9E3779B97F4A7C15ULL, sum;

/* What the line tells, in its order. */
enum { MADE, ANSWERS, REFUSED, BROKEN, STACK, COUNTS };
static const char *const NAMES[COUNTS] = { " calls ", " answers ", " refused ", " broken ",
                                           " stack " };
static uint32_t counts[COUNTS];

uint32_t any(uint32_t n)
{
    seed ^= seed << 13;
    seed ^= seed >> 7;
    seed ^= seed << 17;
    return (uint32_t)((seed * 0x2545F4914F6CDD1DULL) >> 33) % n;
}

size_t fill(uint8_t *bytes, size_t most)
{
    static const uint8_t LIKELY[] = { 0x6F, 0x84, 0x50, 0x5F, 0x20, 0x9F, 0x3B, 0xFF, 0x81, 0x82,
                                      0x00, 0x02, 0x04, 0x70, 0x61, 0x90, 0x6C, 0xA4, 0xCA, 0xDA };
    size_t i, n = any((uint32_t)most + 1);
    for (i = 0; i < n; i++)
        bytes[i] = any(3) ? LIKELY[any(sizeof LIKELY)] : (uint8_t)any(256);
    return n;
}

void mix(uint64_t value)
{
    sum = (sum ^ value) * 0x100000001B3ULL;
    sum ^= sum >> 29;
}

void mix_bytes(const uint8_t *bytes, size_t n)
{
    size_t i;
    mix(n);
    for (i = 0; i < n; i++)
        mix(bytes[i]);
}

int32_t code(int32_t it)
{
    counts[MADE]++;
    mix((uint32_t)it);
    return it;
}

void count_answer(uint16_t status)
{
    mix(status);
    counts[ANSWERS] += status == 0x9000;
}

void count_refused(void)
{
    counts[REFUSED]++;
}

void count_broken(void)
{
    counts[BROKEN]++;
}

/* Writes a number in decimal, and returns the place after it. */
static char *written(char *to, uint32_t number)
{
    uint32_t power = 1;
    while (number / power >= 10)
        power *= 10;
    for (; power != 0; power /= 10)
        *to++ = (char)('0' + number / power % 10);
    return to;
}

static const char *line(void)
{
    static char text[120];
    char *to = text;
    uint64_t left = sum;
    int i;
    for (i = 0; i < 16; i++, left <<= 4)
        *to++ = "0123456789ABCDEF"[left >> 60];
    for (i = 0; i < COUNTS; i++) {
        const char *from = NAMES[i];
        while (*from != 0)
            *to++ = *from++;
        to = written(to, counts[i]);
    }
    *to++ = '\n';
    *to = 0;
    return text;
}

#ifndef __wasm__ /* its stack has no address */
/* The stack below a play is painted, except what the painter itself takes. */
enum { NEAR = 256, DEPTH = 16384, PAINT = 0xA7 };

static void paint(volatile uint8_t *from)
{
    int i;
    for (i = NEAR; i < DEPTH; i++)
        from[-i] = PAINT;
}

/* How many bytes of the stack the play has written, from the first one to the deepest. */
static uint32_t written_below(const volatile uint8_t *from)
{
    int i = DEPTH - 1;
    while (i >= NEAR && from[-i] == PAINT)
        i--;
    return (uint32_t)i;
}
#endif

static void play_parts(uint32_t most)
{
    while (counts[MADE] < most) {
        read_bytes();
        talk();
        hold_session();
        /* all is given back */
        if (gt_arena_used() != 0)
            count_broken();
    }
}

const char *play(uint32_t most)
{
#ifdef __wasm__
    play_parts(most);
#else
    volatile uint8_t *from = __builtin_frame_address(0);
    paint(from);
    play_parts(most);
    counts[STACK] = written_below(from);
#endif
    return line();
}
