/* c_session: gets and puts of small and large objects through C. The first word names the way, and
 * the program prints the time of a character. A number after it is how often `repeat` carries out
 * each operation, for a profiler. The ways:
 *
 * - session: a session, which joins both ends.
 * - heard: the same with a listener.
 * - buffers: a terminal and a card that pass characters by buffers.
 * - characters: the same, one character at a time.
 * - tpdus: the same, by whole TPDUs.
 * - apdus: the same, by whole commands. The characters are those of the TPDUs.
 * - t1: the same over T=1, with the library's ends. So apdus is the same without T=1.
 * - t1_by_hand: the same with the ends of t1_by_hand.c.
 * - own_buffers, own_characters, own_tpdus, own_apdus: a terminal, and a card of your own that
 *   answers each get with its object, which has at most 4,000 bytes.
 * - by_hand: both ends of ends_by_hand.c, by buffers. With BY_CHARACTERS one character at a time.
 * - own_by_hand: the terminal of ends_by_hand.c and the card of own_by_hand.c, in the same way. */
#define _POSIX_C_SOURCE 199309L

#include "ends_by_hand.h"
#include "own_by_hand.h"
#include "t1_by_hand.h"

#include <stdio.h>
#include <stdlib.h>
#include <string.h>
#include <time.h>

static const uint8_t AID[] = { 0xA0, 0x00, 0x00, 0x00, 0x03, 0x10, 0x10 };

enum { CONTENT = 0x42, BUFFER = 512, OK = 0x9000, OWN_VALUE = 4000 };

enum task { TASK_SELECT, TASK_GET, TASK_PUT };

/* An operation, and how often it is carried out. */
struct load {
    const char *name;
    enum task task;
    uint16_t tag;
    size_t size;
    int tpdus;
    size_t characters;
    long times;
};

static struct load LOADS[] = {
    { "get of 3 bytes", TASK_GET, 0x5F20, 3, 2, 21, 1000000 },
    { "get of 20 bytes", TASK_GET, 0x5F50, 20, 2, 38, 500000 },
    { "put of 20 bytes", TASK_PUT, 0x5F50, 20, 1, 28, 1000000 },
    { "put of 8,192 bytes", TASK_PUT, 0x50, 8192, 33, 8456, 2000 },
    { "get of 8,192 bytes", TASK_GET, 0x50, 8192, 33, 8460, 2000 },
};

static const struct load SELECTION = { "selection", TASK_SELECT, 0, 0, 2, 0, 1 };

static uint8_t value[VALUE_LIMIT], data[RESPONSE_LIMIT];

static void fail(const char *what)
{
    fprintf(stderr, "c_session: %s\n", what);
    exit(1);
}

static void need(bool holds, const char *what)
{
    if (!holds)
        fail(what);
}

/* ---- A session ------------------------------------------------------------------------------- */

static gt_session session;

static void build(gt_card *card)
{
    size_t i;
    need(gt_card_new(card) == GT_OK && gt_card_app(card, AID, sizeof AID) == GT_OK, "a card");
    for (i = 0; i < 2; i++)
        need(gt_card_object(card, LOADS[i].tag, value, LOADS[i].size, 0) == GT_OK, "an object");
    need(gt_card_object(card, 0x50, value, LOADS[4].size, 0) == GT_OK, "an object");
    need(gt_card_finish(card) == GT_OK, "a card");
}

static void session_start(void)
{
    gt_card card = GT_INIT;
    build(&card);
    need(gt_session_start(&session, &card) == GT_OK, "a session");
}

static void heard_start(void)
{
    session_start();
    need(gt_session_listen(&session) == GT_OK, "a session");
}

static uint16_t session_carry_out(const struct load *load, size_t *len)
{
    uint16_t status = 0;
    int32_t code;
    *len = 0;
    if (load->task == TASK_SELECT)
        code = gt_session_select(&session, AID, sizeof AID, &status, data, sizeof data, len);
    else if (load->task == TASK_GET)
        code = gt_session_get(&session, load->tag, &status, data, sizeof data, len);
    else
        code = gt_session_put(&session, load->tag, value, load->size, &status);
    need(code == GT_OK, "an operation");
    return status;
}

/* ---- The two ends through C ------------------------------------------------------------------ */

static gt_terminal terminal;
static gt_card card;

static void ends_start(void)
{
    build(&card);
    need(gt_terminal_new(&terminal) == GT_OK, "a terminal");
}

/* A card of your own answers the commands of a get with this, and others with a status alone. */
static uint8_t object[OWN_VALUE + 4];
static size_t object_size;

static const uint8_t DIRECTIONS[32] = GT_ISO_DIRECTIONS;

static void own_start(void)
{
    LOADS[3].size = LOADS[4].size = OWN_VALUE;
    need(gt_card_own(&card, DIRECTIONS) == GT_OK && gt_terminal_new(&terminal) == GT_OK, "ends");
}

static void make_object(const struct load *load)
{
    size_t head;
    need(gt_head(load->tag, (uint16_t)load->size, object, &head) == GT_OK, "a head");
    memcpy(object + head, value, load->size);
    object_size = head + load->size;
}

/* Answers the command that waits at a card of your own. */
static bool respond(int32_t turn)
{
    gt_command command;
    if (turn != GT_COMMAND)
        return false;
    need(gt_card_command(&card, &command) == GT_OK
         && gt_card_respond(&card, object, command.size ? 0 : object_size, OK) == GT_OK,
         "a response");
    return true;
}

static void begin(const struct load *load)
{
    int32_t code;
    if (load->task == TASK_SELECT)
        code = gt_terminal_select(&terminal, AID, sizeof AID);
    else if (load->task == TASK_GET)
        code = gt_terminal_get(&terminal, load->tag);
    else
        code = gt_terminal_put(&terminal, load->tag, value, load->size);
    need(code == GT_OK, "an operation");
}

static uint16_t answer(size_t *len)
{
    uint16_t status = 0;
    need(gt_terminal_answer(&terminal, &status, data, sizeof data, len) == GT_OK, "an answer");
    return status;
}

static uint16_t characters_carry_out(const struct load *load, size_t *len)
{
    uint8_t byte;
    int32_t turn;
    begin(load);
    while ((turn = gt_terminal_next(&terminal, &byte)) != GT_DONE) {
        if (turn == GT_SENDS) {
            need(gt_card_take(&card, byte) == GT_OK, "the card listens");
            continue;
        }
        while (respond(turn = gt_card_turn(&card, &byte)))
            continue;
        need(turn == GT_SENDS && gt_terminal_take(&terminal, byte) == GT_OK,
             "the terminal listens");
    }
    return answer(len);
}

static uint16_t buffers_carry_out(const struct load *load, size_t *len)
{
    static uint8_t buffer[BUFFER];
    size_t n, taken;
    int32_t turn;
    begin(load);
    for (;;) {
        turn = gt_terminal_send_bytes(&terminal, buffer, sizeof buffer, &n);
        need(gt_card_receive_bytes(&card, buffer, n, &taken) == GT_OK, "the card listens");
        if (turn == GT_DONE)
            return answer(len);
        do {
            turn = gt_card_send_bytes(&card, buffer, sizeof buffer, &n);
            need(n == 0 || gt_terminal_receive_bytes(&terminal, buffer, n, &taken) == GT_OK,
                 "the terminal listens");
        } while (respond(turn));
        need(turn == GT_OK, "the card listens");
    }
}

static void pass_tpdu(const uint8_t *tpdu, size_t n)
{
    static uint8_t came[GT_ANSWER_LIMIT];
    size_t size;
    int32_t turn = gt_card_tpdu(&card, tpdu, n, came, sizeof came, &size);
    while (respond(turn))
        turn = gt_card_tpdu(&card, NULL, 0, came, sizeof came, &size);
    need(turn == GT_OK && gt_terminal_answered(&terminal, came, size) == GT_OK, "a TPDU");
}

static uint16_t tpdus_carry_out(const struct load *load, size_t *len)
{
    uint8_t tpdu[GT_TPDU_LIMIT];
    size_t n, most;
    begin(load);
    while (gt_terminal_tpdu(&terminal, tpdu, &n, &most) == GT_OK)
        pass_tpdu(tpdu, n);
    return answer(len);
}

static void pass_apdu(const uint8_t *apdu, size_t n)
{
    static uint8_t came[GT_ANSWER_LIMIT];
    size_t size;
    int32_t turn = gt_card_apdu(&card, apdu, n, came, sizeof came, &size);
    while (respond(turn))
        turn = gt_card_apdu(&card, NULL, 0, came, sizeof came, &size);
    need(turn == GT_OK && gt_terminal_responded(&terminal, came, size) == GT_OK, "a command");
}

/* In each way for itself, as a caller would write it. */
static inline __attribute__((always_inline)) uint16_t
by_commands(const struct load *load, size_t *len, void (*pass)(const uint8_t *apdu, size_t n))
{
    uint8_t apdu[GT_APDU_LIMIT];
    size_t n, most;
    begin(load);
    while (gt_terminal_apdu(&terminal, apdu, &n, &most) == GT_OK)
        pass(apdu, n);
    return answer(len);
}

static uint16_t apdus_carry_out(const struct load *load, size_t *len)
{
    return by_commands(load, len, pass_apdu);
}

/* ---- Commands over T=1, by blocks ------------------------------------------------------------ */

static gt_t1 end;
static size_t passed_blocks; /* their bytes */

static void t1_start(void)
{
    ends_start();
    need(gt_card_t1_begin(&card) == GT_OK
         && gt_t1_new(&end, GT_LRC, 254, GT_T1_TRIES, GT_T1_EXTENSIONS, GT_ANSWER_LIMIT) == GT_OK,
         "the ends");
}

static void pass_blocks(const uint8_t *apdu, size_t n)
{
    uint8_t block[GT_BLOCK_LIMIT], came[GT_ANSWER_LIMIT], waits;
    size_t size, taken;
    need(gt_t1_begin(&end, apdu, n) == GT_OK, "a command");
    while (gt_t1_send_bytes(&end, block, sizeof block, &size, &waits) == GT_OK) {
        passed_blocks += size;
        need(gt_card_t1_receive_bytes(&card, block, size, &taken) == GT_SENDS
             && gt_card_t1_send_bytes(&card, block, sizeof block, &size) == GT_OK, "an answer");
        passed_blocks += size;
        need(gt_t1_receive_bytes(&end, block, size, &taken) == GT_SENDS, "a block");
    }
    need(gt_t1_response(&end, came, sizeof came, &size) == GT_OK
         && gt_terminal_responded(&terminal, came, size) == GT_OK, "a response");
}

static uint16_t t1_carry_out(const struct load *load, size_t *len)
{
    return by_commands(load, len, pass_blocks);
}

static struct t1_card hand_t1_card;
static struct t1_terminal hand_end;

static void hand_t1_start(void)
{
    ends_start();
    hand_t1_card.card = &card;
    hand_t1_card.ifsd = hand_end.ifsc = 254;
}

static void pass_blocks_by_hand(const uint8_t *apdu, size_t n)
{
    uint8_t block[GT_BLOCK_LIMIT], came[GT_BLOCK_LIMIT];
    size_t size = t1_terminal_begins(&hand_end, apdu, n, block);
    while (size > 0) {
        const size_t back = t1_card_takes(&hand_t1_card, block, size, came);
        passed_blocks += size + back;
        size = t1_terminal_takes(&hand_end, came, back, block);
    }
    need(gt_terminal_responded(&terminal, hand_end.response.bytes, hand_end.response.n) == GT_OK,
         "a response");
}

static uint16_t hand_t1_carry_out(const struct load *load, size_t *len)
{
    return by_commands(load, len, pass_blocks_by_hand);
}

/* ---- The two ends by hand -------------------------------------------------------------------- */

static struct terminal hand_terminal;
static struct card hand_card;
static struct own_card hand_own;

static void hand_start(void)
{
    size_t i;
    terminal_new(&hand_terminal);
    card_begin(&hand_card, AID, sizeof AID);
    for (i = 0; i < 2; i++)
        need(card_object(&hand_card, LOADS[i].tag, value, LOADS[i].size) == NO_FAULT, "an object");
    need(card_object(&hand_card, 0x50, value, sizeof value) == NO_FAULT, "an object");
}

static void hand_own_start(void)
{
    LOADS[3].size = LOADS[4].size = OWN_VALUE;
    terminal_new(&hand_terminal);
    memcpy(hand_own.directions, DIRECTIONS, sizeof DIRECTIONS);
    hand_own.live = true;
}

/* Answers the command that waits at the card of your own, as `respond` does. */
static bool hand_respond(enum own_turn turn)
{
    struct own_command command;
    if (turn != OWN_COMMAND)
        return false;
    need(own_command(&hand_own, &command)
         && own_respond(&hand_own, object, command.size ? 0 : object_size, OK), "a response");
    return true;
}

static void hand_begin(const struct load *load)
{
    enum fault fault;
    if (load->task == TASK_SELECT)
        fault = terminal_select(&hand_terminal, AID, sizeof AID);
    else if (load->task == TASK_GET)
        fault = terminal_get(&hand_terminal, load->tag);
    else
        fault = terminal_put(&hand_terminal, load->tag, value, load->size);
    need(fault == NO_FAULT, "an operation");
}

#ifdef BY_CHARACTERS

static uint16_t hand_carry_out(const struct load *load, size_t *len)
{
    uint8_t byte;
    enum turn turn;
    hand_begin(load);
    while ((turn = terminal_next(&hand_terminal, &byte)) != DONE) {
        if (turn == SENDS)
            need(card_take(&hand_card, byte) == NO_FAULT, "the card listens");
        else
            need(card_turn(&hand_card, &byte) == SENDS
                 && terminal_take(&hand_terminal, byte) == NO_FAULT, "the terminal listens");
    }
    return terminal_answer(&hand_terminal, data, sizeof data, len);
}

static uint16_t hand_own_carry_out(const struct load *load, size_t *len)
{
    uint8_t byte;
    enum turn turn;
    hand_begin(load);
    while ((turn = terminal_next(&hand_terminal, &byte)) != DONE) {
        enum own_turn own;
        if (turn == SENDS) {
            need(own_take(&hand_own, byte), "the card listens");
            continue;
        }
        while (hand_respond(own = own_turn(&hand_own, &byte)))
            continue;
        need(own == OWN_SENDS && terminal_take(&hand_terminal, byte) == NO_FAULT,
             "the terminal listens");
    }
    return terminal_answer(&hand_terminal, data, sizeof data, len);
}

#else

static uint8_t buffer_by_hand[BUFFER];

static uint16_t hand_carry_out(const struct load *load, size_t *len)
{
    uint8_t *const buffer = buffer_by_hand;
    size_t n, taken;
    hand_begin(load);
    for (;;) {
        enum turn turn = terminal_send_bytes(&hand_terminal, buffer, BUFFER, &n);
        need(card_receive_bytes(&hand_card, buffer, n, &taken) == NO_FAULT, "the card listens");
        if (turn == DONE)
            return terminal_answer(&hand_terminal, data, sizeof data, len);
        need(turn == LISTENS && card_send_bytes(&hand_card, buffer, BUFFER, &n) == LISTENS
             && terminal_receive_bytes(&hand_terminal, buffer, n, &taken) == NO_FAULT,
             "the terminal listens");
    }
}

static uint16_t hand_own_carry_out(const struct load *load, size_t *len)
{
    uint8_t *const buffer = buffer_by_hand;
    size_t n, taken;
    hand_begin(load);
    for (;;) {
        enum turn turn = terminal_send_bytes(&hand_terminal, buffer, BUFFER, &n);
        enum own_turn own;
        need(own_receive_bytes(&hand_own, buffer, n, &taken), "the card listens");
        if (turn == DONE)
            return terminal_answer(&hand_terminal, data, sizeof data, len);
        do {
            own = own_send_bytes(&hand_own, buffer, BUFFER, &n);
            need(n == 0
                 || terminal_receive_bytes(&hand_terminal, buffer, n, &taken) == NO_FAULT,
                 "the terminal listens");
        } while (hand_respond(own));
        need(own == OWN_LISTENS, "the card listens");
    }
}

#endif

/* ---- What is measured ------------------------------------------------------------------------ */

static const struct way {
    const char *name;
    void (*start)(void);
    uint16_t (*carry_out)(const struct load *load, size_t *len);
} WAYS[] = {
    { "session", session_start, session_carry_out },
    { "heard", heard_start, session_carry_out },
    { "buffers", ends_start, buffers_carry_out },
    { "characters", ends_start, characters_carry_out },
    { "tpdus", ends_start, tpdus_carry_out },
    { "apdus", ends_start, apdus_carry_out },
    { "own_buffers", own_start, buffers_carry_out },
    { "own_characters", own_start, characters_carry_out },
    { "own_tpdus", own_start, tpdus_carry_out },
    { "own_apdus", own_start, apdus_carry_out },
    { "t1", t1_start, t1_carry_out },
    { "t1_by_hand", hand_t1_start, hand_t1_carry_out },
    { "by_hand", hand_start, hand_carry_out },
    { "own_by_hand", hand_own_start, hand_own_carry_out },
};

/* The processor time of this program, so that other work of the machine matters less. */
static double processor_time(void)
{
    struct timespec time;
    clock_gettime(CLOCK_PROCESS_CPUTIME_ID, &time);
    return (double)time.tv_sec + (double)time.tv_nsec / 1e9;
}

/* Carries out one operation, and checks its answer. */
static void carry_out(const struct way *way, const struct load *load)
{
    const size_t head = load->size > 255 ? 4 : 3;
    size_t len = 0;
    need(way->carry_out(load, &len) == OK, "another status than 9000");
    if (load->task == TASK_GET)
        need(len == head + load->size && data[len - 1] == CONTENT, "other data");
}

/* Checks that a session that is heard needs the expected number of characters. */
static void check_characters(const struct way *way, const struct load *load)
{
    size_t count = 0;
    carry_out(way, load);
    if (way->start != heard_start)
        return;
    need(gt_session_heard(&session, NULL, 0, &count) == GT_BUFFER && count == load->characters,
         "another number of characters");
}

/* Carries out `times` operations. A call by pointer keeps it a separate function, so that a
 * profiler finds it by its name. */
void repeat(const struct way *way, const struct load *load, long times)
{
    for (; times > 0; times--)
        carry_out(way, load);
}

static void (*const volatile repeated)(const struct way *, const struct load *, long) = repeat;

static void measure(const struct way *way, const struct load *load)
{
    double seconds;
    check_characters(way, load);
    passed_blocks = 0;
    seconds = processor_time();
    repeated(way, load, load->times);
    seconds = processor_time() - seconds;
    printf("%s: %d TPDUs, %lu characters\n  %ld times in %.2f s, %.2f ns a character\n", load->name,
           load->tpdus, (unsigned long)load->characters, load->times, seconds,
           seconds * 1e9 / ((double)load->times * (double)load->characters));
    if (passed_blocks > 0)
        printf("  %.1f million bytes of blocks a second\n", (double)passed_blocks / seconds / 1e6);
}

/* Carries out `times` operations for a profiler. As many precede them uncounted, so that memory is
 * laid out as in a long run. */
static void count(const struct way *way, const struct load *load, long times)
{
    long i;
    check_characters(way, load);
    for (i = 0; i < times; i++)
        carry_out(way, load);
    repeated(way, load, times);
}

int main(int argc, char **argv)
{
    const long times = argc == 3 ? atol(argv[2]) : 0;
    size_t i, j;
    memset(value, CONTENT, sizeof value);
    for (i = 0; i < sizeof WAYS / sizeof *WAYS; i++) {
        if (argc < 2 || strcmp(argv[1], WAYS[i].name) != 0)
            continue;
        WAYS[i].start();
        carry_out(&WAYS[i], &SELECTION);
        for (j = 0; j < sizeof LOADS / sizeof *LOADS; j++) {
            if (LOADS[j].size <= OWN_VALUE)
                make_object(&LOADS[j]);
            if (times > 0)
                count(&WAYS[i], &LOADS[j], times);
            else
                measure(&WAYS[i], &LOADS[j]);
        }
        return 0;
    }
    fail("the first word is a way");
    return 1;
}
