/* Tests the line of bindings/c/examples/board, and its terminal at T=0, over a clock that this
 * program advances: what comes, when, and when this end sends. Times are by ISO/IEC 7816-3, in
 * ticks of the board. */
#include "block.h"

#include <stdio.h>
#include <string.h>

enum { MOST = 700, STEP = 50 };

static uint64_t now, sent_at[MOST];
static uint8_t sent[MOST];
static size_t sent_count, checked, failed;
/* what comes: when, which, and whether with wrong parity */
static struct { uint64_t at; uint8_t byte; bool is_wrong; } coming[MOST];
static size_t coming_count, come;

uint64_t board_ticks(void)
{
    now += STEP;
    while (come < coming_count && coming[come].at <= now) {
        line_take(coming[come].byte, coming[come].is_wrong);
        come++;
    }
    return now;
}

/* A character comes this number of ticks from now. */
static void comes(uint64_t after, uint8_t byte, bool is_wrong)
{
    coming[coming_count].at = now + after;
    coming[coming_count].byte = byte;
    coming[coming_count++].is_wrong = is_wrong;
}

/* What the card answers once this many characters were sent, and the ticks between its bytes. */
static struct { size_t after, n; uint8_t bytes[2]; uint64_t gap; } reply;

bool board_sends(uint8_t byte)
{
    size_t i;
    sent_at[sent_count] = now;
    sent[sent_count++] = byte;
    for (i = 0; sent_count == reply.after && i < reply.n; i++)
        comes(line_etu(30) + i * reply.gap, reply.bytes[i], false);
    return true;
}

static char printed[100];

void board_print(const char *text)
{
    strncat(printed, text, sizeof printed - strlen(printed) - 1);
}

static void look(bool is_well, int line)
{
    checked++;
    failed += !is_well;
    if (!is_well)
        printf("line %d\n", line);
}
#define LOOK(it) look(it, __LINE__)

/* Whether a time is this one, or a few looks at the clock later. */
static bool is_near(uint64_t time, uint64_t wanted)
{
    return time >= wanted && time <= wanted + 8 * STEP;
}

static void waits(void)
{
    const uint64_t wait = line_etu(100);
    uint64_t began;
    uint8_t byte = 0;
    comes(wait - 10 * STEP, 0x5A, false);
    LOOK(line_receive(&byte, wait) == LINE_WELL && byte == 0x5A);
    began = now;
    LOOK(line_receive(&byte, wait) == LINE_SILENT && is_near(now, began + wait));
    comes(STEP, 0xA5, true);
    LOOK(line_receive(&byte, wait) == LINE_WRONG && byte == 0xA5);
    LOOK(line_etu(372) == line_cycles(372 * 372) && line_etu(1) == BOARD_HZ / 9600);
    /* after a character was sent the wait begins at its end */
    line_send(&byte, 1, 0);
    began = sent_at[sent_count - 1] + line_etu(12);
    LOOK(line_receive(&byte, wait) == LINE_SILENT && is_near(now, began + wait));
}

static void sends(void)
{
    static const uint8_t BYTES[3] = { 1, 2, 3 };
    static const unsigned GUARDS[2] = { 16, 22 };
    size_t i, j, first;
    uint8_t byte;
    for (i = 0; i < 2; i++) {
        uint64_t before;
        comes(STEP, 0, false);
        LOOK(line_receive(&byte, line_etu(9)) == LINE_WELL);
        before = now;
        first = sent_count;
        line_send(BYTES, 3, GUARDS[i]);
        /* the received character had begun 10 etu before */
        LOOK(sent_count == first + 3 && is_near(sent_at[first], before + line_etu(GUARDS[i] - 10)));
        for (j = 0; j < 3; j++)
            LOOK(sent[first + j] == BYTES[j]
                 && (j == 0 || is_near(sent_at[first + j], sent_at[first + j - 1] + line_etu(12))));
    }
}

static void drops(void)
{
    uint64_t last;
    uint8_t byte;
    comes(STEP, 1, false);
    comes(line_etu(20), 2, true);
    comes(line_etu(45), 3, false);
    last = now + line_etu(45);
    line_drop(line_etu(30));
    LOOK(!line_has_more() && is_near(now, last + line_etu(30)));
    LOOK(line_receive(&byte, 0) == LINE_SILENT);
}

/* What nobody takes in time is lost, and the next character says so. */
static void overflows(void)
{
    size_t i;
    uint8_t byte;
    for (i = 0; i < 513; i++)
        line_take((uint8_t)i, false);
    for (i = 0; i < 512; i++)
        LOOK(line_receive(&byte, 0) == LINE_WELL && byte == (uint8_t)i);
    LOOK(!line_has_more());
    line_take(7, false);
    line_take(8, false);
    LOOK(line_receive(&byte, 0) == LINE_WRONG && line_receive(&byte, 0) == LINE_WELL && byte == 8);
}

static void blocks(void)
{
    static const uint8_t WHOLE[6] = { 0x00, 0x40, 0x02, 0x90, 0x00, 0xD2 };
    const uint64_t cwt = line_etu(43);
    struct block block;
    uint64_t began;
    size_t i;
    for (i = 0; i < 6; i++)
        comes(line_etu(90 + 40 * i), WHOLE[i], false);
    LOOK(block_receive(&block, line_etu(100), cwt) == LINE_WELL && block.n == 6);
    for (i = 0; i < 6; i++)
        LOOK(block.bytes[i] == WHOLE[i]);
    for (i = 0; i < 5; i++)
        comes(line_etu(40 + 40 * i), WHOLE[i], false);
    began = now + line_etu(200);
    LOOK(block_receive(&block, line_etu(100), cwt) == LINE_SILENT && is_near(now, began + cwt));
    for (i = 0; i < 6; i++)
        comes(line_etu(12 + 12 * i), WHOLE[i], i == 2);
    LOOK(block_receive(&block, line_etu(100), cwt) == LINE_WRONG && !line_has_more());
    LOOK(block_receive(&block, line_etu(100), cwt) == LINE_SILENT && block.n == 0);
    for (i = 0; i < GT_BLOCK_LIMIT + 1; i++)
        comes(line_etu(12 + 12 * i), 0xFF, false);
    LOOK(block_receive(&block, line_etu(100), cwt) == LINE_WELL && block.n == GT_BLOCK_LIMIT);
    line_drop(cwt);
}

/* The terminal of a card that answers the header of SELECT so. Returns what it prints. */
static const char *select_answered(size_t n, uint64_t gap)
{
    printed[0] = 0;
    coming_count = come = sent_count = 0;
    reply.after = 5;
    reply.n = n;
    reply.bytes[0] = reply.bytes[1] = 0xA4;
    reply.gap = gap;
    comes(line_etu(50), 0x3B, false);
    comes(line_etu(62), 0x00, false);
    board_main();
    reply.after = 0;
    return printed;
}

/* A terminal's turn comes 16 etu after the card's character began. What comes until then is
 * unexpected. */
static void turns(void)
{
    LOOK(strcmp(select_answered(1, 0), "select the card is silent\n") == 0);
    LOOK(sent_count == 12 && is_near(sent_at[5], coming[2].at + line_etu(16 - 10)));
    LOOK(strcmp(select_answered(2, line_etu(5)), "select unexpected byte\n") == 0);
    LOOK(sent_count == 5);
    line_drop(0);
}

int main(void)
{
    now = BOARD_HZ;
    waits();
    sends();
    drops();
    overflows();
    blocks();
    turns();
    printf("%u passed, %u failed\n", (unsigned)(checked - failed), (unsigned)failed);
    return failed != 0;
}
