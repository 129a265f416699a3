/* Terminals, exchanges and ends at T=1 with a card of an application, each in a room of its own of
 * the least size. After a room has begun no call runs out of memory; with a slot less one does. */
#include "galliumtoad_heap.h"
#include "room.h"

#include <stdio.h>
#include <stdlib.h>
#include <string.h>

#define LONGEST 300
enum { CARDS = 8, COMMANDS = 1000, TURNS = 4000, LINE = 700 };
enum end { EXCHANGE, TERMINAL, T1, CARD, ENDS };

static const uint8_t DIRECTIONS[32] = GT_ISO_DIRECTIONS;
static unsigned char bytes[ENDS][GT_ROOM_OF(GT_OWN_CARD_ROOM, LONGEST)];
static gt_room rooms[ENDS];
static gt_exchange exchange = GT_INIT;
static gt_terminal terminal = GT_INIT;
static gt_t1 t1 = GT_INIT;
static gt_card card = GT_INIT;
static uint8_t command[300], answer[LONGEST], line[LINE];
static size_t command_size, answer_size;
/* Whether a buffer of the least size makes a room, and one of a byte less none. */
#define IS_ROOM(end, kind) \
    (gt_room_begin(&rooms[end], kind, bytes[end], GT_ROOM_OF(kind, LONGEST) - 1, LONGEST) \
         == GT_MEMORY && \
     gt_room_begin(&rooms[end], kind, bytes[end], GT_ROOM_OF(kind, LONGEST), LONGEST) == GT_OK)
static uint64_t seed = 0x9E3779B97F4A7C15u;
static int is_exchange, passed, failed, refused;

static uint32_t any(uint32_t n)
{
    seed = seed * 6364136223846793005u + 1442695040888963407u;
    return (uint32_t)(seed >> 33) % n;
}

static void look(const char *what, int is_well)
{
    passed += is_well;
    failed += !is_well;
    if (!is_well)
        printf("FAILED: %s\n", what);
}

static int32_t counted(int32_t code)
{
    refused += code == GT_MEMORY;
    return code;
}

/* a call with an end, in its room; and one with the terminal or the exchange */
#define IN(end, call) (gt_room_enter(&rooms[end]), counted(call))
#define END(name, ...) \
    (is_exchange ? IN(EXCHANGE, gt_exchange_##name(&exchange, __VA_ARGS__)) \
                 : IN(TERMINAL, gt_terminal_##name(&terminal, __VA_ARGS__)))

/* The application answers any command with as many bytes as it asks for. */
static int is_asked(int32_t said)
{
    gt_command its;
    size_t i;
    if (said == GT_HEADER)
        return IN(CARD, gt_card_direction(&card, command[1] != 0xB0)) == GT_OK;
    if (said != GT_COMMAND || IN(CARD, gt_card_command(&card, &its)) != GT_OK)
        return 0;
    if (any(20) == 0 && IN(CARD, gt_card_more_time(&card, 1)) == GT_OK)
        return 1;
    answer_size = its.le;
    for (i = 0; i < answer_size; i++)
        answer[i] = (uint8_t)any(256);
    return IN(CARD, gt_card_respond(&card, answer, answer_size, 0x9000)) == GT_OK;
}

/* Each way returns whether the command in progress has ended with an answer. */

static int by_characters(void)
{
    uint8_t byte = 0;
    int i;
    for (i = 0; i < TURNS; i++) {
        int32_t said = END(next, &byte);
        if (said == GT_SENDS) {
            IN(CARD, gt_card_take(&card, byte));
            continue;
        }
        if (said != GT_OK)
            return said == GT_DONE;
        said = IN(CARD, gt_card_turn(&card, &byte));
        if (said == GT_SENDS)
            END(take, byte);
        else if (!is_asked(said))
            return 0;
    }
    return 0;
}

typedef int32_t whole(gt_card *, const uint8_t *, size_t, uint8_t *, size_t, size_t *);

/* The card's answer to the n bytes in `line` is there then. Returns its length. */
static size_t passed_on(whole *call, size_t n)
{
    static uint8_t response[LINE];
    size_t len = 0;
    int32_t said = IN(CARD, call(&card, line, n, response, sizeof response, &len));
    while (is_asked(said))
        said = IN(CARD, call(&card, NULL, 0, response, sizeof response, &len));
    memcpy(line, response, len);
    return len;
}

static int by_tpdus(void)
{
    size_t n = 0, most = 0;
    while (END(tpdu, line, &n, &most) == GT_OK)
        if (END(answered, line, passed_on(gt_card_tpdu, n)) < 0)
            return 0;
    return 1;
}

/* The card takes the block of n bytes in `line`, and gives the next. Returns its length. */
static size_t card_block(size_t n)
{
    size_t taken = 0;
    IN(CARD, gt_card_t1_receive_bytes(&card, line, n, &taken));
    while (is_asked(IN(CARD, gt_card_t1_send_bytes(&card, line, GT_BLOCK_LIMIT, &n)))) {}
    return n;
}

/* The same over T=1, where now and then a block is lost. */
static size_t passed_on_blocks(size_t n)
{
    uint8_t waits;
    size_t taken;
    IN(T1, gt_t1_begin(&t1, line, n));
    while (IN(T1, gt_t1_send_bytes(&t1, line, GT_BLOCK_LIMIT, &n, &waits)) == GT_OK) {
        n = card_block(n);
        if (any(9) == 0)
            IN(T1, gt_t1_missed(&t1));
        else
            IN(T1, gt_t1_receive_bytes(&t1, line, n, &taken));
    }
    n = 0;
    IN(T1, gt_t1_response(&t1, line, sizeof line, &n));
    return n;
}

static int by_commands(int by_blocks)
{
    size_t n = 0, most = 0;
    while (END(apdu, line, &n, &most) == GT_OK)
        if (END(responded, line, by_blocks ? passed_on_blocks(n) : passed_on(gt_card_apdu, n)) < 0)
            return 0;
    return 1;
}

/* A command of any case. Those of many bytes are rare. */
static void make_command(void)
{
    size_t lc = any(2) ? 1 + any(any(9) ? 20 : 255) : 0, le = any(2);
    memset(command, 0, sizeof command);
    command[1] = lc != 0 && le == 0 ? 0xD6 : 0xB0;
    if (lc != 0 && le != 0)
        command[1] = 0xCB;
    command[4] = (uint8_t)lc;
    command_size = 5 + lc;
    if (lc == 0)
        command[4] = (uint8_t)any(256);
    else if (le != 0)
        command[command_size++] = (uint8_t)any(256);
}

/* Returns whether the command got the application's answer. A card at T=0 does not know Le, if the
 * command has data too. */
static int is_answered(void)
{
    static uint8_t data[LONGEST];
    uint16_t status = 0;
    size_t n = 0;
    return END(answer, &status, data, sizeof data, &n) == GT_OK && status == 0x9000
        && (n == answer_size || (command[1] == 0xCB && n < answer_size))
        && memcmp(data, answer, n) == 0;
}

static int is_carried_out(int by_blocks)
{
    const uint32_t way = by_blocks ? 2 : any(3);
    make_command();
    answer_size = 0;
    is_exchange = (int)any(2);
    gt_room_enter(&rooms[is_exchange ? EXCHANGE : TERMINAL]);
    if (counted(is_exchange
                    ? gt_exchange_start_within(&exchange, command, command_size, LONGEST)
                    : gt_terminal_send(&terminal, command, command_size)) != GT_OK)
        return 0;
    if (!(way == 0 ? by_characters() : way == 1 ? by_tpdus() : by_commands(by_blocks)))
        return 0;
    return is_answered();
}

/* A command longer than a short one, which takes other memory of an end at T=1. */
static void begin_long(void)
{
    static const uint8_t LONG[LONGEST] = { 0x00, 0xD6, 0x00, 0x00, 0x00, 0x01, 0x25 };
    IN(T1, gt_t1_begin(&t1, LONG, GT_APDU_LIMIT + 1 + any(LONGEST - GT_APDU_LIMIT)));
    IN(T1, gt_t1_reset(&t1));
}

static void free_all(void)
{
    gt_exchange_free(&exchange);
    gt_terminal_free(&terminal);
    gt_t1_free(&t1);
    gt_card_free(&card);
}

/* Whether nothing is left in a room but the 16 bytes before each slot. */
static int is_wiped(const gt_room *room)
{
    const unsigned char *at = room->slots;
    size_t i, j, used = 0;
    for (i = 0; i < room->count; i++) {
        const size_t size = i == 0 ? room->first : room->each;
        for (at += 16, j = 0; j < size; j++)
            used += *at++ != 0;
    }
    return used == 0;
}

/* Begins the rooms, where `less` has a slot less: ENDS for none. */
static void begin_all(enum end less)
{
    look("a room for an exchange", IS_ROOM(EXCHANGE, GT_EXCHANGE_ROOM));
    look("a room for a terminal", IS_ROOM(TERMINAL, GT_TERMINAL_ROOM));
    look("a room for an end at T=1", IS_ROOM(T1, GT_T1_ROOM));
    look("a room for a card", IS_ROOM(CARD, GT_OWN_CARD_ROOM));
    if (less != ENDS)
        rooms[less].count--;
}

/* Carries out commands by a card, and returns how many were answered. */
static int answered_by_one_card(int by_blocks, enum end less)
{
    int i, count = 0, are_wiped = 1;
    begin_all(less);
    IN(TERMINAL, gt_terminal_new_within(&terminal, LONGEST));
    IN(T1, gt_t1_new(&t1, GT_LRC, (uint8_t)(1 + any(253)), 200, 10, LONGEST));
    IN(CARD, gt_card_own(&card, any(2) ? DIRECTIONS : NULL));
    if (by_blocks)
        IN(CARD, gt_card_t1_begin(&card));
    for (i = 0; i < COMMANDS; i++) {
        count += is_carried_out(by_blocks);
        gt_room_enter(&rooms[EXCHANGE]);
        gt_exchange_free(&exchange);
        if (any(40) == 0)
            IN(TERMINAL, gt_terminal_reset(&terminal));
        if (!by_blocks && any(40) == 0)
            begin_long();
    }
    free_all();
    for (i = 0; i < ENDS; i++)
        are_wiped = are_wiped && is_wiped(&rooms[i]);
    look("all is wiped", are_wiped);
    return count;
}

/* A room may begin at any place, whatever is there. Its last block is within the buffer. */
static void begin_anywhere(void)
{
    const size_t size = GT_ROOM_OF(GT_T1_ROOM, LONGEST);
    unsigned char *buffer = bytes[CARD];
    int i, well = 0;
    for (i = 0; i < 16; i++) {
        gt_taken last;
        memset(buffer, 0xA5, size + 16);
        if (gt_room_begin(&rooms[T1], GT_T1_ROOM, buffer + i, size, LONGEST) != GT_OK)
            continue;
        last = rattle_alloc(LONGEST, 8);
        well += last.some && (uintptr_t)last.at % 16 == 0
            && (unsigned char *)last.at + rooms[T1].each <= buffer + i + size
            && buffer[i + (int)size] == 0xA5;
    }
    look("a room at any place", well == 16);
}

/* What a block keeps when it grows or shrinks. */
static void change_a_block(void)
{
    uint8_t *block;
    gt_taken taken;
    begin_all(ENDS);
    gt_room_enter(&rooms[TERMINAL]);
    taken = rattle_alloc(100, 8);
    block = taken.at;
    look("a block", taken.some && (uintptr_t)block % 16 == 0);
    memset(block, 0xA5, 100);
    taken = rattle_realloc(block, 40, LONGEST, 8);
    look("it grows", taken.some && taken.at == block && block[39] == 0xA5 && block[40] == 0);
    look("it can't", !rattle_realloc(block, 40, 1000, 8).some && block[39] == 0xA5);
    look("nor a new one", !rattle_alloc(1000, 8).some && rattle_alloc(1000, 8).at != NULL);
    rattle_dealloc(block);
    gt_room_enter(NULL);
    look("no room", !rattle_alloc(1, 1).some);
    look("no buffer", gt_room_begin(&rooms[T1], GT_T1_ROOM, NULL, 9999, 9) == GT_NULL
             && gt_room_begin(NULL, GT_T1_ROOM, bytes[T1], sizeof bytes[T1], 9) == GT_NULL);
    look("a length that is no size",
         gt_room_begin(&rooms[T1], GT_T1_ROOM, bytes[T1], sizeof bytes[T1], SIZE_MAX) == GT_MEMORY);
}

/* rooms [NUMBER]: other commands and answers for each number. */
int main(int argc, char **argv)
{
    int card_number, less;
    if (argc > 1)
        seed += strtoul(argv[1], NULL, 10);
    begin_anywhere();
    change_a_block();
    for (card_number = 0; card_number < CARDS; card_number++) {
        const int count = answered_by_one_card(card_number % 2, ENDS);
        look("each command is answered", count == COMMANDS);
        look("no call runs out of memory", refused == 0);
        refused = 0;
    }
    for (less = 0; less < ENDS; less++) {
        answered_by_one_card(0, (enum end)less);
        answered_by_one_card(1, (enum end)less);
        look("a slot less is too few", refused != 0);
        refused = 0;
    }
    printf("%d passed, %d failed\n", passed, failed);
    return failed != 0;
}
