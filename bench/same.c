/* same: compares the ends by hand with the library's, over random characters and blocks. Each pair
 * must hand out, take and refuse the same. With BY_CHARACTERS these are the ends for single
 * characters alone. The last line is 'N passed, N failed'. */
#include "ends_by_hand.h"
#include "own_by_hand.h"
#include "t1_by_hand.h"

#include <stdio.h>
#include <stdlib.h>
#include <string.h>

enum { TIMES = 20000, MOST = 600 };

static const uint8_t AID[] = { 0xA0, 0x00, 0x00, 0x00, 0x03, 0x10, 0x10 };
static const uint8_t DIRECTIONS[32] = GT_ISO_DIRECTIONS;
static const uint16_t TAGS[] = { 0x50, 0x5F20, 0x5F50, 0x9F36, 0x5F51 };

static unsigned long passed;

/* Ends at the first difference, since the ends then are at different places. */
static void same(const char *what, long library, long hand)
{
    if (library == hand) {
        passed++;
        return;
    }
    printf("FAILED: %s: %ld, by hand %ld\n%lu passed, 1 failed\n", what, library, hand, passed);
    exit(1);
}

static void same_bytes(const char *what, const uint8_t *library, const uint8_t *hand, size_t n)
{
    same(what, 0, memcmp(library, hand, n) != 0);
}

static void need(bool holds, const char *what)
{
    same(what, true, holds);
}

/* A random number below `most`, the same in each run. */
static size_t draw(size_t most)
{
    static uint64_t state = 1;
    state = state * 6364136223846793005U + 1442695040888963407U;
    return (size_t)(state >> 33) % most;
}

#define ONE_OF(list) ((list)[draw(sizeof(list) / sizeof *(list))])

static void fill(uint8_t *bytes, size_t n)
{
    while (n-- > 0)
        bytes[n] = (uint8_t)draw(256);
}

/* ---- The terminal ---------------------------------------------------------------------------- */

static gt_terminal terminal;
static struct terminal hand_terminal;

static long code_of(enum fault fault)
{
    static const int32_t codes[] = { GT_OK, GT_BAD_PROCEDURE, GT_TOO_LONG, GT_NOT_LISTENING,
                                     GT_AFTER_END, GT_STALLED, GT_MEMORY, GT_EMPTY };
    return codes[fault];
}

static long turn_of(enum turn turn)
{
    return turn == SENDS ? GT_SENDS : turn == DONE ? GT_DONE : GT_OK;
}

/* Whether characters go one at a time next. */
static bool is_single(void)
{
#ifdef BY_CHARACTERS
    return true;
#else
    return draw(3) == 0;
#endif
}

#ifdef BY_CHARACTERS
/* never called */
#define terminal_send_bytes(...) DONE
#define terminal_receive_bytes(...) EMPTY
#define card_send_bytes(...) DONE
#define card_receive_bytes(...) EMPTY
#endif

/* Both terminals send up to `room` characters. Returns the turn. */
static long sends(size_t room)
{
    uint8_t library[MOST], hand[MOST];
    size_t n = 0, by_hand = 0;
    long turn;
    if (is_single()) {
        turn = gt_terminal_next(&terminal, library);
        same("a turn", turn, turn_of(terminal_next(&hand_terminal, hand)));
        n = by_hand = turn == GT_SENDS;
    } else {
        turn = gt_terminal_send_bytes(&terminal, library, room, &n);
        same("a turn", turn, turn_of(terminal_send_bytes(&hand_terminal, hand, room, &by_hand)));
    }
    same("characters of the terminal", (long)n, (long)by_hand);
    same_bytes("what the terminal sends", library, hand, n);
    return turn;
}

/* Both terminals take characters. Returns the code. */
static long takes(const uint8_t *bytes, size_t n)
{
    size_t taken = 0, by_hand = 0;
    long code = GT_OK;
    enum fault fault = NO_FAULT;
    if (is_single()) {
        while (taken < n && (code = gt_terminal_take(&terminal, bytes[taken])) == GT_OK)
            taken++;
        while (by_hand < n && (fault = terminal_take(&hand_terminal, bytes[by_hand])) == NO_FAULT)
            by_hand++;
    } else {
        code = gt_terminal_receive_bytes(&terminal, bytes, n, &taken);
        fault = terminal_receive_bytes(&hand_terminal, bytes, n, &by_hand);
    }
    same("a fault", code, code_of(fault));
    same("taken characters", (long)taken, (long)by_hand);
    return code;
}

static void begin(void)
{
    static uint8_t value[VALUE_LIMIT];
    const uint16_t tag = ONE_OF(TAGS);
    const size_t n = draw(4) > 0 ? draw(300) : draw(sizeof value);
    const size_t kind = draw(3);
    fill(value, n);
    if (kind == 0)
        same("a selection", gt_terminal_select(&terminal, AID, sizeof AID),
             code_of(terminal_select(&hand_terminal, AID, sizeof AID)));
    else if (kind == 1)
        same("a get", gt_terminal_get(&terminal, tag), code_of(terminal_get(&hand_terminal, tag)));
    else
        same("a put", gt_terminal_put(&terminal, tag, value, n),
             code_of(terminal_put(&hand_terminal, tag, value, n)));
}

/* What a card may send: mostly what may come next, and with `fills` all that it can. */
static size_t of_card(uint8_t *bytes, bool fills)
{
    const uint8_t ins = hand_terminal.header[1];
    const size_t kind = draw(10);
    size_t n = 1;
    bytes[0] = ins;
    bytes[1] = (uint8_t)draw(256);
    if (hand_terminal.stage == HOST_MOVING && (fills || draw(10) > 0))
        fill(bytes, n = fills ? hand_terminal.until - hand_terminal.moved : 1 + draw(300));
    else if (fills && hand_terminal.moved > 0)
        bytes[0] = 0x61, bytes[1] = 0x00, n = 2;
    else if (fills)
        return n;
    else if (kind == 0)
        bytes[0] = ins ^ 0xFF;
    else if (kind == 1)
        bytes[0] = 0x60;
    else if (kind < 4)
        bytes[0] = 0x61, n = 2;
    else if (kind == 4)
        bytes[0] = 0x6C, n = 2;
    else if (kind == 5)
        bytes[0] = 0x90, bytes[1] = 0, n = 2;
    else if (draw(200) == 0)
        fill(bytes, n);
    return n;
}

static void try_terminal(void)
{
    uint8_t library[RESPONSE_LIMIT], hand[RESPONSE_LIMIT], bytes[MOST];
    const bool fills = draw(50) == 0;
    size_t n, by_hand, steps;
    long turn = GT_OK, code = GT_OK;
    begin();
    for (steps = 0; steps < 2000 && turn != GT_DONE && code == GT_OK; steps++) {
        turn = sends(1 + draw(MOST));
        if (turn == GT_OK)
            code = takes(bytes, of_card(bytes, fills));
    }
    if (turn == GT_DONE) {
        uint16_t status = 0;
        need(gt_terminal_answer(&terminal, &status, library, sizeof library, &n) == GT_OK,
             "an answer");
        same("a status", status, terminal_answer(&hand_terminal, hand, sizeof hand, &by_hand));
        same("an answer", (long)n, (long)by_hand);
        same_bytes("the data of an answer", library, hand, n);
    } else {
        need(gt_terminal_reset(&terminal) == GT_OK, "a reset");
        terminal_free(&hand_terminal);
        terminal_new(&hand_terminal);
    }
}

/* ---- Cards ----------------------------------------------------------------------------------- */

static gt_card card, own;
static struct card hand_card;
static struct own_card hand_own;

static void build(gt_card *to)
{
    static const uint8_t value[20] = { 1, 2, 3 };
    need(gt_card_new(to) == GT_OK && gt_card_app(to, AID, sizeof AID) == GT_OK
         && gt_card_object(to, 0x5F20, value, 3, 0) == GT_OK
         && gt_card_object(to, 0x5F50, value, 20, 1) == GT_OK && gt_card_finish(to) == GT_OK,
         "a card");
}

static void build_by_hand(void)
{
    static const uint8_t value[20] = { 1, 2, 3 };
    size_t i;
    card_begin(&hand_card, AID, sizeof AID);
    need(card_object(&hand_card, 0x5F20, value, 3) == NO_FAULT
         && card_object(&hand_card, 0x5F50, value, 20) == NO_FAULT, "a card by hand");
    for (i = 0; i < sizeof hand_card.entries / sizeof *hand_card.entries; i++)
        hand_card.entries[i].locked = hand_card.entries[i].tag == 0x5F50;
}

/* A card of data objects, or of your own, with its last header, what its last status announced,
 * and the pieces of a long chain that are still to come. */
struct ends {
    gt_card *library;
    bool is_own;
    uint8_t header[5], announced;
    size_t pieces;
};

/* Makes the next header, mostly one that the card takes. */
static void make_header(struct ends *of)
{
    static const uint8_t classes[] = { 0x00, 0x00, 0x00, 0x00, 0x10, 0x10, 0x80, 0x0C };
    static const uint8_t instructions[] = { 0xA4, 0xCA, 0xCA, 0xDA, 0xDA, 0xC0, 0xC0, 0xB0, 0x6A,
                                            0x9A };
    static const uint8_t sizes[] = { 0x00, 0x01, 0x06, 0x07, 0x17, 0xFF, 0xFF, 0x80 };
    static const uint8_t long_put[5] = { 0x10, 0xDA, 0x00, 0x50, 0xFF };
    uint8_t *const header = of->header;
    if (of->pieces > 0) {
        header[0] = --of->pieces > 0 ? 0x10 : 0x00;
        return;
    }
    if (draw(150) == 0) {
        memcpy(header, long_put, sizeof long_put);
        of->pieces = draw(35);
        return;
    }
    if (of->announced != 0 && draw(3) > 0) {
        header[4] = of->announced;
        header[1] = draw(2) == 0 ? 0xC0 : header[1];
    } else {
        const uint16_t tag = draw(3) > 0 ? ONE_OF(TAGS) : (uint16_t)(0x5F00 | draw(256));
        header[0] = ONE_OF(classes);
        header[1] = ONE_OF(instructions);
        header[2] = (uint8_t)(tag >> 8);
        header[3] = (uint8_t)tag;
        header[4] = draw(3) > 0 ? ONE_OF(sizes) : (uint8_t)draw(256);
        if (header[1] == 0xA4 && draw(10) > 0)
            header[2] = 0x04, header[3] = 0x00, header[4] = sizeof AID;
    }
    if (header[1] == 0xC0 && draw(10) > 0)
        header[2] = header[3] = 0x00;
}

/* The data of a command. */
static void make_data(const struct ends *of, uint8_t bytes[255])
{
    fill(bytes, 255);
    if (of->header[1] == 0xA4 && draw(8) > 0)
        memcpy(bytes, AID, sizeof AID);
}

static long turn_of_own(enum own_turn turn)
{
    return turn == OWN_COMMAND ? GT_COMMAND : turn == OWN_SENDS ? GT_SENDS : GT_OK;
}

/* Both cards send up to MOST characters, which are the same. Returns the turn. */
static long card_sends(const struct ends *of)
{
    uint8_t library[MOST], hand[MOST];
    const size_t room = 1 + draw(MOST);
    size_t n = 0, by_hand = 0;
    long turn, turn_by_hand;
    if (is_single()) {
        turn = gt_card_turn(of->library, library);
        turn_by_hand = of->is_own ? turn_of_own(own_turn(&hand_own, hand))
                                  : turn_of(card_turn(&hand_card, hand));
        n = by_hand = turn == GT_SENDS;
    } else {
        turn = gt_card_send_bytes(of->library, library, room, &n);
        turn_by_hand = of->is_own ? turn_of_own(own_send_bytes(&hand_own, hand, room, &by_hand))
                                  : turn_of(card_send_bytes(&hand_card, hand, room, &by_hand));
    }
    same("a card's turn", turn, turn_by_hand);
    same("characters of the card", (long)n, (long)by_hand);
    same_bytes("what the card sends", library, hand, n);
    return turn;
}

static void card_takes(const struct ends *of, const uint8_t *bytes, size_t n)
{
    size_t taken = 0, by_hand = 0;
    if (is_single()) {
        while (taken < n && gt_card_take(of->library, bytes[taken]) == GT_OK)
            taken++;
        while (by_hand < n && (of->is_own ? own_take(&hand_own, bytes[by_hand])
                                          : card_take(&hand_card, bytes[by_hand]) == NO_FAULT))
            by_hand++;
    } else {
        (void)!gt_card_receive_bytes(of->library, bytes, n, &taken);
        if (of->is_own)
            (void)own_receive_bytes(&hand_own, bytes, n, &by_hand);
        else
            (void)card_receive_bytes(&hand_card, bytes, n, &by_hand);
    }
    same("characters that the card takes", (long)taken, (long)by_hand);
}

/* Both cards of your own show the same command, and get the same response. */
static void respond(void)
{
    static const uint16_t statuses[] = { 0x9000, 0x9000, 0x6A82, 0x6283, 0x63C2 };
    static const size_t sizes[] = { 0, 0, 1, 6, 7, 23, 255, 256, 257, 4096, 4097 };
    static uint8_t bytes[OWN_LIMIT + 1];
    const uint16_t status = draw(20) > 0 ? ONE_OF(statuses) : (uint16_t)(0x6100 | draw(0xC00));
    const size_t n = draw(3) > 0 ? ONE_OF(sizes) : draw(600);
    gt_command command;
    struct own_command by_hand;
    fill(bytes, n);
    need(gt_card_command(&own, &command) == GT_OK && own_command(&hand_own, &by_hand), "a command");
    same("its header", (long)command.cla << 24 | command.ins << 16 | command.p1 << 8 | command.p2,
         (long)by_hand.cla << 24 | by_hand.ins << 16 | by_hand.p1 << 8 | by_hand.p2);
    same("its Le", command.le, by_hand.le);
    same("its size", (long)command.size, by_hand.size);
    same_bytes("its data", command.data, by_hand.data, by_hand.size);
    same("a response", gt_card_respond(&own, bytes, n, status) == GT_OK,
         own_respond(&hand_own, bytes, n, status));
}

/* Whether the card waits for a header, by hand. */
static bool is_between(const struct ends *of)
{
    if (of->is_own)
        return hand_own.stage == OWN_HEADER && hand_own.taken == 0;
    return hand_card.stage == CARD_OPENING && hand_card.taken == 0;
}

/* A TPDU at both cards: a header, and data while they listen. */
static void try_card(struct ends *of)
{
    static const uint8_t nothing[255];
    uint8_t bytes[255];
    size_t at = 0;
    make_header(of);
    make_data(of, bytes);
    card_takes(of, of->header, sizeof of->header);
    do {
        const long turn = card_sends(of);
        if (turn == GT_COMMAND) {
            respond();
        } else if (turn == GT_OK && !is_between(of)) {
            const size_t more = 1 + draw(of->header[4] - at);
            card_takes(of, bytes + at, more);
            at += more;
        }
    } while (!is_between(of));
    same_bytes("data that the card keeps", nothing, of->is_own ? hand_own.came : hand_card.came,
               sizeof nothing);
    of->announced = of->is_own ? hand_own.sw2 : hand_card.sw2;
}

/* ---- T=1 ------------------------------------------------------------------------------------- */

static gt_card straight, at_t1, under;  /* by commands; at T=1; below the end by hand */
static gt_t1 end;
static struct t1_card hand_t1_card;
static struct t1_terminal hand_end;

typedef size_t answers(uint8_t *block, size_t n, uint8_t *answer);

/* Damages a block, at most each fourth. */
static void damage(uint8_t *block, size_t n)
{
    static size_t since;
    if (++since < 4 || draw(4) > 0)
        return;
    since = 0;
    block[n - 1] ^= (uint8_t)(1 << draw(8));
}

static size_t by_library(uint8_t *block, size_t n, uint8_t *answer)
{
    size_t size, taken;
    damage(block, n);
    need(gt_card_t1_receive_bytes(&at_t1, block, n, &taken) == GT_SENDS
         && gt_card_t1_send_bytes(&at_t1, answer, GT_BLOCK_LIMIT, &size) == GT_OK, "an answer");
    damage(answer, size);
    return size;
}

static size_t by_hand(uint8_t *block, size_t n, uint8_t *answer)
{
    size_t size;
    damage(block, n);
    size = t1_card_takes(&hand_t1_card, block, n, answer);
    damage(answer, size);
    return size;
}

/* A command over the terminal's end of the library. */
static size_t from_library(answers *card_end, const uint8_t *apdu, size_t n, uint8_t *response)
{
    uint8_t block[GT_BLOCK_LIMIT], answer[GT_BLOCK_LIMIT], waits;
    size_t size, taken;
    need(gt_t1_begin(&end, apdu, n) == GT_OK, "a command");
    while (gt_t1_send_bytes(&end, block, sizeof block, &size, &waits) == GT_OK) {
        size = card_end(block, size, answer);
        need(gt_t1_receive_bytes(&end, answer, size, &taken) == GT_SENDS, "a block");
    }
    need(gt_t1_response(&end, response, GT_ANSWER_LIMIT, &size) == GT_OK, "a response");
    return size;
}

/* The same over the end by hand. */
static size_t from_hand(answers *card_end, const uint8_t *apdu, size_t n, uint8_t *response)
{
    uint8_t block[GT_BLOCK_LIMIT], answer[GT_BLOCK_LIMIT];
    size_t size = t1_terminal_begins(&hand_end, apdu, n, block);
    while (size > 0)
        size = t1_terminal_takes(&hand_end, answer, card_end(block, size, answer), block);
    memcpy(response, hand_end.response.bytes, hand_end.response.n);
    return hand_end.response.n;
}

/* A command over both ends by hand, each with one of the library, and straight. */
static void try_t1(struct ends *of)
{
    uint8_t apdu[GT_APDU_LIMIT], wanted[GT_ANSWER_LIMIT], got[GT_ANSWER_LIMIT];
    size_t n = 5, size, at;
    int32_t code;
    make_header(of);
    memcpy(apdu, of->header, sizeof of->header);
    if (apdu[1] == 0xA4 || apdu[1] == 0xDA) {
        make_data(of, apdu + 5);
        n = apdu[4] > 0 ? (size_t)5 + apdu[4] : 4;
    }
    code = gt_card_apdu(&straight, apdu, n, wanted, sizeof wanted, &size);
    if (code != GT_OK) {
        wanted[0] = code == GT_INVALID_INS ? 0x6D : 0x67;
        wanted[1] = 0;
        size = 2;
    }
    of->announced = wanted[size - 1];
    for (at = 0; at < 2; at++) {
        const size_t came = at == 0 ? from_library(by_hand, apdu, n, got)
                                    : from_hand(by_library, apdu, n, got);
        same("a response at T=1", (long)size, (long)came);
        same_bytes("its bytes", wanted, got, size);
    }
}

static void start_t1(void)
{
    build(&straight);
    build(&at_t1);
    build(&under);
    hand_t1_card.card = &under;
    hand_t1_card.ifsd = 32;
    hand_end.ifsc = (uint8_t)(1 + draw(254));
    need(gt_card_t1_begin(&at_t1) == GT_OK
         && gt_t1_new(&end, GT_LRC, (uint8_t)(1 + draw(254)), GT_T1_TRIES, GT_T1_EXTENSIONS,
                      GT_ANSWER_LIMIT) == GT_OK, "the ends of T=1");
}

int main(void)
{
    static struct ends objects = { &card, false, { 0 }, 0, 0 }, yours = { &own, true, { 0 }, 0, 0 };
    static struct ends over_t1;
    long i;
    terminal_new(&hand_terminal);
    build(&card);
    build_by_hand();
    memcpy(hand_own.directions, DIRECTIONS, sizeof DIRECTIONS);
    hand_own.live = true;
    need(gt_terminal_new(&terminal) == GT_OK && gt_card_own(&own, DIRECTIONS) == GT_OK, "the ends");
    start_t1();
    for (i = 0; i < TIMES; i++) {
        try_terminal();
        try_card(&objects);
        try_card(&yours);
        try_t1(&over_t1);
    }
    printf("%lu passed, 0 failed\n", passed);
    return 0;
}
