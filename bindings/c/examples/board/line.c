#include "line.h"

/* a power of two; more than the longest block */
#define ROOM 512u
#define WRONG 0x100u

/* the etu of a character with two stop bits, and of one without them */
enum { CHARACTER = 12, BARE = 10 };

/* The interrupt alone writes `ring` and `filled`, and the program alone `taken`. */
static volatile uint16_t ring[ROOM];
static volatile uint32_t filled, taken;
static volatile bool is_full;
/* when the last character ended: one sent may not have ended yet */
static uint64_t last;

void line_take(uint8_t byte, bool is_wrong)
{
    if (filled - taken == ROOM) {
        is_full = true;
        return;
    }
    ring[filled % ROOM] = (uint16_t)(byte | (is_wrong || is_full ? WRONG : 0u));
    is_full = false;
    filled++;
}

uint64_t line_etu(uint64_t count)
{
    return count * LINE_ETU;
}

uint64_t line_cycles(uint64_t count)
{
    return count * LINE_ETU / LINE_ETU_CYCLES;
}

bool line_has_more(void)
{
    return filled != taken;
}

/* Takes the next character, if it comes by then. */
static enum line_result take(uint8_t *byte, uint64_t until)
{
    uint16_t it;
    while (!line_has_more())
        if (board_ticks() > until)
            return LINE_SILENT;
    it = ring[taken % ROOM];
    taken++;
    last = board_ticks();
    *byte = (uint8_t)it;
    return (it & WRONG) != 0 ? LINE_WRONG : LINE_WELL;
}

enum line_result line_receive(uint8_t *byte, uint64_t wait)
{
    const uint64_t now = board_ticks();
    return take(byte, (now > last ? now : last) + wait + LINE_SLACK);
}

void line_drop(uint64_t quiet)
{
    uint8_t byte;
    while (take(&byte, board_ticks() + quiet) != LINE_SILENT) {}
}

/* A guard time counts from the beginning of a character, and `last` is near its end. */
static uint64_t end_of_guard(unsigned guard)
{
    return last + line_etu(guard > BARE ? guard - BARE : 0);
}

bool line_is_quiet(unsigned guard)
{
    const uint64_t until = end_of_guard(guard);
    while (board_ticks() < until) {}
    return !line_has_more();
}

void line_send(const uint8_t *bytes, size_t n, unsigned guard)
{
    uint64_t from = end_of_guard(guard);
    size_t i;
    for (i = 0; i < n; i++) {
        while (board_ticks() < from) {}
        while (!board_sends(bytes[i])) {}
        from = board_ticks() + line_etu(CHARACTER);
    }
    last = from;
}
