#include "ends_by_hand.h"

#include <stdlib.h>
#include <string.h>

enum { SELECT = 0xA4, GET_DATA = 0xCA, PUT_DATA = 0xDA, GET_RESPONSE = 0xC0 };

/* CLA of a command that is not the last of its chain */
enum { CHAINED = 0x10 };

/* How many bytes a P3 asks for, or an SW2 announces. */
static size_t count_of(uint8_t byte)
{
    return byte == 0 ? 256 : byte;
}

static size_t less(size_t one, size_t other)
{
    return one < other ? one : other;
}

/* ---- The terminal ---------------------------------------------------------------------------- */

/* Starts the next piece of the data. */
static void begin_piece(struct terminal *terminal)
{
    const size_t left = terminal->size - terminal->from;
    terminal->piece = less(left, PIECE_LIMIT);
    terminal->header[0] = left > PIECE_LIMIT ? CHAINED : 0x00;
    terminal->header[4] = (uint8_t)terminal->piece;
    terminal->stage = HOST_OPENING;
    terminal->sent = 0;
    terminal->moved = 0;
    terminal->gathered = 0;
}

/* A call by pointer, so that a compiler does not drop it. */
static void *(*const volatile wipe)(void *, int, size_t) = memset;

void terminal_new(struct terminal *terminal)
{
    memset(terminal, 0, sizeof *terminal);
    terminal->live = true;
    terminal->stage = HOST_ENDED;
}

static enum fault begin(struct terminal *terminal, uint8_t ins, uint8_t p1, uint8_t p2,
                        const uint8_t *content, size_t n, size_t wanted)
{
    if (!terminal->live)
        return EMPTY;
    if (terminal->stage != HOST_ENDED)
        return STALLED;
    if (terminal->response == NULL && (terminal->response = malloc(RESPONSE_LIMIT)) == NULL)
        return OUT_OF_MEMORY;
    if (n > terminal->capacity) {
        uint8_t *more = malloc(n);
        if (more == NULL)
            return OUT_OF_MEMORY;
        if (terminal->content != NULL) {
            wipe(terminal->content, 0, terminal->capacity);
            free(terminal->content);
        }
        terminal->content = more;
        terminal->capacity = n;
    }
    if (terminal->gathered > 0)
        memset(terminal->response, 0, terminal->gathered);
    if (n > 0)
        memcpy(terminal->content, content, n);
    terminal->size = n;
    terminal->from = 0;
    terminal->fetches = terminal->repeats = false;
    terminal->before = 0;
    terminal->wanted = wanted;
    terminal->asks = n == 0 && wanted > 0;
    terminal->header[1] = ins;
    terminal->header[2] = p1;
    terminal->header[3] = p2;
    begin_piece(terminal);
    if (terminal->asks)
        terminal->header[4] = (uint8_t)wanted;
    return NO_FAULT;
}

enum fault terminal_select(struct terminal *terminal, const uint8_t *aid, size_t n)
{
    return begin(terminal, SELECT, 0x04, 0x00, aid, n, 256);
}

enum fault terminal_get(struct terminal *terminal, uint16_t tag)
{
    return begin(terminal, GET_DATA, (uint8_t)(tag >> 8), (uint8_t)tag, NULL, 0, 256);
}

enum fault terminal_put(struct terminal *terminal, uint16_t tag, const uint8_t *value, size_t n)
{
    return begin(terminal, PUT_DATA, (uint8_t)(tag >> 8), (uint8_t)tag, value, n, 0);
}

#ifdef BY_CHARACTERS

static void end_out(struct terminal *terminal)
{
    terminal->moved = terminal->until;
    terminal->stage = HOST_AWAITING;
}

static void end_in(struct terminal *terminal)
{
    const size_t gathered = (size_t)(terminal->in - terminal->response);
    terminal->moved += gathered - terminal->gathered;
    terminal->gathered = gathered;
    if (terminal->moved == terminal->until)
        terminal->stage = HOST_AWAITING;
}

#endif

enum turn terminal_next(struct terminal *terminal, uint8_t *byte)
{
#ifdef BY_CHARACTERS
    if (terminal->outs > 0) {
        *byte = *terminal->out++;
        if (--terminal->outs == 0)
            end_out(terminal);
        return SENDS;
    }
    if (terminal->ins > 0)
        return LISTENS;
#endif
    if (!terminal->live)
        return DONE;
    switch (terminal->stage) {
    case HOST_MOVING:
#ifndef BY_CHARACTERS
        if (!terminal->asks) {
            *byte = terminal->content[terminal->from + terminal->moved];
            if (++terminal->moved == terminal->until)
                terminal->stage = HOST_AWAITING;
            return SENDS;
        }
#endif
        return LISTENS;
    case HOST_OPENING:
        *byte = terminal->header[terminal->sent];
        if (++terminal->sent == sizeof terminal->header) {
            terminal->stage = HOST_AWAITING;
            terminal->moved = 0;
        }
        return SENDS;
    case HOST_ENDED:
        return DONE;
    default:
        return LISTENS;
    }
}

static bool is_first_status(uint8_t byte)
{
    return (byte > 0x60 && byte <= 0x6F) || (byte >= 0x90 && byte <= 0x9F);
}

static enum fault take_procedure_byte(struct terminal *terminal, uint8_t byte)
{
    const uint8_t ins = terminal->header[1], one = (uint8_t)(ins ^ 0xFF);
    const size_t whole = terminal->asks ? count_of(terminal->header[4]) : terminal->piece;
    size_t until = terminal->moved;
    if (byte == ins) {
        until = whole;
    } else if (byte == one) {
        until = less(whole, terminal->moved + 1);
    } else if (is_first_status(byte)) {
        terminal->sw1 = byte;
        terminal->stage = HOST_SECOND_STATUS;
        return NO_FAULT;
    } else if (byte != 0x60) {
        return BAD_PROCEDURE;
    }
    if (terminal->moved < until) {
        terminal->until = until;
        terminal->stage = HOST_MOVING;
#ifdef BY_CHARACTERS
        if (terminal->asks) {
            terminal->in = terminal->response + terminal->gathered;
            terminal->ins = less(until - terminal->moved, RESPONSE_LIMIT - terminal->gathered);
        } else {
            terminal->out = terminal->content + terminal->from + terminal->moved;
            terminal->outs = until - terminal->moved;
        }
#endif
    }
    return NO_FAULT;
}

static void ask(struct terminal *terminal, uint8_t p3)
{
    terminal->header[4] = p3;
    terminal->stage = HOST_OPENING;
    terminal->sent = 0;
}

/* Decides what follows a status: the TPDU once more, a GET RESPONSE, the next piece, or nothing. */
static enum fault follow(struct terminal *terminal)
{
    const size_t gathered = terminal->gathered, announced = count_of(terminal->sw2);
    size_t left = SIZE_MAX;
    if (terminal->wanted != 256)
        left = terminal->wanted > gathered ? terminal->wanted - gathered : 0;
    if (terminal->sw1 == 0x6C && terminal->asks && !terminal->repeats && announced <= left) {
        terminal->repeats = true;
        ask(terminal, terminal->sw2);
    } else if (terminal->sw1 == 0x61 && left > 0) {
        static const uint8_t FETCH[4] = { 0x00, GET_RESPONSE, 0x00, 0x00 };
        if (terminal->fetches && gathered == terminal->before)
            return STALLED;
        memcpy(terminal->header, FETCH, sizeof FETCH);
        terminal->asks = true;
        terminal->fetches = true;
        terminal->repeats = false;
        terminal->before = gathered;
        ask(terminal, (uint8_t)less(announced, left));
    } else if (terminal->sw1 == 0x90 && terminal->sw2 == 0x00
               && terminal->from + terminal->piece < terminal->size) {
        terminal->from += terminal->piece;
        begin_piece(terminal);
    } else {
        terminal->stage = HOST_ENDED;
    }
    return NO_FAULT;
}

enum fault terminal_take(struct terminal *terminal, uint8_t byte)
{
#ifdef BY_CHARACTERS
    if (terminal->ins > 0) {
        *terminal->in++ = byte;
        if (--terminal->ins == 0)
            end_in(terminal);
        return NO_FAULT;
    }
#endif
    if (!terminal->live)
        return EMPTY;
    switch (terminal->stage) {
    case HOST_MOVING:
#ifndef BY_CHARACTERS
        if (terminal->asks && terminal->gathered < RESPONSE_LIMIT) {
            terminal->response[terminal->gathered++] = byte;
            if (++terminal->moved == terminal->until)
                terminal->stage = HOST_AWAITING;
            return NO_FAULT;
        }
#endif
        return terminal->asks ? TOO_LONG : NOT_LISTENING;
    case HOST_AWAITING:
        return take_procedure_byte(terminal, byte);
    case HOST_SECOND_STATUS:
        terminal->sw2 = byte;
        return follow(terminal);
    case HOST_OPENING:
        return NOT_LISTENING;
    default:
        return AFTER_END;
    }
}

uint16_t terminal_answer(const struct terminal *terminal, uint8_t *data, size_t room, size_t *len)
{
    *len = terminal->gathered;
    if (terminal->gathered <= room)
        memcpy(data, terminal->response, terminal->gathered);
    return (uint16_t)(terminal->sw1 << 8 | terminal->sw2);
}

void terminal_free(struct terminal *terminal)
{
    if (terminal->content != NULL)
        wipe(terminal->content, 0, terminal->capacity);
    if (terminal->response != NULL)
        wipe(terminal->response, 0, RESPONSE_LIMIT);
    free(terminal->content);
    free(terminal->response);
    terminal->content = NULL;
    terminal->response = NULL;
}

/* ---- The card -------------------------------------------------------------------------------- */

/* The place of a tag: its entry, or the free one that it would have. */
static struct entry *place_of(struct card *card, uint16_t tag)
{
    size_t at = (uint32_t)(tag * UINT32_C(0x9E3779B1)) >> 25;
    while (card->entries[at].tag != 0 && card->entries[at].tag != tag)
        at = (at + 1) % (2 * ENTRY_LIMIT);
    return &card->entries[at];
}

void card_begin(struct card *card, const uint8_t *aid, size_t n)
{
    memset(card, 0, sizeof *card);
    memcpy(card->aid, aid, n);
    card->aid_size = n;
    card->live = true;
}

static uint8_t *copy_of(const uint8_t *value, size_t n)
{
    uint8_t *copy = malloc(n > 0 ? n : 1);
    if (copy != NULL && n > 0)
        memcpy(copy, value, n);
    return copy;
}

static void store(struct card *card, uint16_t tag, uint8_t *value, size_t n)
{
    struct entry *entry = place_of(card, tag);
    if (entry->tag == 0)
        card->entry_count++;
    else {
        wipe(entry->value, 0, entry->size);
        free(entry->value);
    }
    entry->tag = tag;
    entry->value = value;
    entry->size = n;
}

enum fault card_object(struct card *card, uint16_t tag, const uint8_t *value, size_t n)
{
    uint8_t *copy = copy_of(value, n);
    if (copy == NULL)
        return OUT_OF_MEMORY;
    store(card, tag, copy, n);
    return NO_FAULT;
}

enum fault card_take(struct card *card, uint8_t byte)
{
#ifdef BY_CHARACTERS
    if (card->ins > 0) {
        *card->in++ = byte;
        if (--card->ins == 0)
            card->moved = card->opening[4];
        return NO_FAULT;
    }
#endif
    if (!card->live)
        return EMPTY;
    if (card->stage == CARD_OPENING && card->taken < sizeof card->opening) {
        card->opening[card->taken++] = byte;
        return NO_FAULT;
    }
#ifndef BY_CHARACTERS
    if (card->stage == CARD_RECEIVING && card->moved < card->opening[4]) {
        card->came[card->moved++] = byte;
        return NO_FAULT;
    }
#endif
    return NOT_LISTENING;
}

static size_t left_of(const struct response *response)
{
    const size_t size = response->entry != NULL ? response->entry->size : 0;
    return response->len + size - response->sent;
}

static void announce(struct card *card, size_t left)
{
    card->sw1 = left == 0 ? 0x90 : 0x61;
    card->sw2 = (uint8_t)less(left, 256);
}

/* Sets the status, and the `outcome` that takes effect with it. */
static void refuse(struct card *card, uint16_t status)
{
    card->sw1 = (uint8_t)(status >> 8);
    card->sw2 = (uint8_t)status;
    card->outcome = LEAVES;
    card->leaves_response = false;
}

/* The tag that P1-P2 name, or 0. */
static uint16_t named_tag(const uint8_t *header)
{
    const uint8_t p1 = header[2], p2 = header[3];
    if (p1 == 0x00 && p2 >= 0x40 && p2 <= 0xFE && (p2 & 0x1F) != 0x1F)
        return p2;
    if (p1 >= 0x5F && (p1 & 0x1F) == 0x1F && p2 >= 0x01 && p2 <= 0x7F)
        return (uint16_t)(p1 << 8 | p2);
    return 0;
}

/* Whether there are as many bytes as the command asks for; `sends` is then this response. */
static bool has_enough(struct card *card, const struct response *response)
{
    const size_t left = left_of(response);
    if (left < count_of(card->opening[4])) {
        refuse(card, (uint16_t)(0x6C00 | left));
        return false;
    }
    card->sends = *response;
    return true;
}

static bool judge_get(struct card *card)
{
    const uint16_t tag = named_tag(card->opening);
    const struct entry *entry;
    struct response response;
    uint8_t *at = response.front;
    if (tag == 0)
        return refuse(card, 0x6A86), false;
    if (!card->is_selected)
        return refuse(card, 0x6985), false;
    entry = place_of(card, tag);
    if (entry->tag == 0)
        return refuse(card, 0x6A88), false;
    if (tag > 0xFF)
        *at++ = (uint8_t)(tag >> 8);
    *at++ = (uint8_t)tag;
    if (entry->size > 0xFF) {
        *at++ = 0x82;
        *at++ = (uint8_t)(entry->size >> 8);
    } else if (entry->size > 0x7F) {
        *at++ = 0x81;
    }
    *at++ = (uint8_t)entry->size;
    response.len = (size_t)(at - response.front);
    response.sent = 0;
    response.entry = entry;
    return has_enough(card, &response);
}

static bool judge_put(struct card *card)
{
    const uint16_t tag = named_tag(card->opening);
    if (tag == 0)
        return refuse(card, 0x6A86), false;
    if (!card->is_selected)
        return refuse(card, 0x6985), false;
    if (place_of(card, tag)->locked)
        return refuse(card, 0x6982), false;
    if (card->chained_size + card->opening[4] > VALUE_LIMIT)
        return refuse(card, 0x6700), false;
    return true;
}

static bool judge_select(struct card *card)
{
    if (card->opening[2] != 0x04 || card->opening[3] != 0x00)
        return refuse(card, 0x6A86), false;
    if (card->opening[4] < AID_LEAST || card->opening[4] > AID_LIMIT)
        return refuse(card, 0x6700), false;
    return true;
}

static bool judge_get_response(struct card *card)
{
    if (card->opening[2] != 0x00 || card->opening[3] != 0x00)
        return refuse(card, 0x6A86), false;
    if (!card->has_response)
        return refuse(card, 0x6985), false;
    if (has_enough(card, &card->response))
        return true;
    card->sends = card->response;
    card->leaves_response = true;
    return false;
}

/* Whether the card takes a header; else it sets its status. */
static bool judge(struct card *card)
{
    const uint8_t cla = card->opening[0], ins = card->opening[1];
    if (card->chains && ((cla & ~CHAINED) != card->chain[0]
                         || memcmp(card->opening + 1, card->chain + 1, 3) != 0))
        return refuse(card, 0x6883), false;
    if (cla != 0x00 && cla != CHAINED && !(cla == 0x80 && ins == GET_DATA))
        return refuse(card, 0x6E00), false;
    if (ins != SELECT && ins != GET_DATA && ins != PUT_DATA && ins != GET_RESPONSE)
        return refuse(card, 0x6D00), false;
    if (cla == CHAINED && ins != PUT_DATA)
        return refuse(card, 0x6884), false;
    switch (ins) {
    case SELECT: return judge_select(card);
    case PUT_DATA: return judge_put(card);
    case GET_DATA: return judge_get(card);
    default: return judge_get_response(card);
    }
}

/* The answer to a selection. */
static void answer_select(struct card *card)
{
    const uint8_t n = card->opening[4];
    if (n != card->aid_size || memcmp(card->came, card->aid, n) != 0) {
        refuse(card, 0x6A82);
        return;
    }
    card->sends.front[0] = 0x6F;
    card->sends.front[1] = (uint8_t)(n + 2);
    card->sends.front[2] = 0x84;
    card->sends.front[3] = n;
    memcpy(card->sends.front + 4, card->came, n);
    card->sends.len = (size_t)n + 4;
    card->sends.sent = 0;
    card->sends.entry = NULL;
    card->outcome = SELECTS;
    announce(card, card->sends.len);
}

/* The answer to the last command of a put. */
static void answer_put(struct card *card)
{
    const uint16_t tag = named_tag(card->opening);
    if (place_of(card, tag)->tag == 0 && card->entry_count == ENTRY_LIMIT) {
        refuse(card, 0x6A84);
        return;
    }
    card->stored = copy_of(card->chained, card->chained_size);
    if (card->stored == NULL) {
        refuse(card, 0x6581);
        return;
    }
    card->stored_tag = tag;
    card->outcome = STORES;
    announce(card, 0);
}

/* The answer after all data were received. */
static void answer_data(struct card *card)
{
    if (card->opening[1] == SELECT) {
        answer_select(card);
        return;
    }
    memcpy(card->chained + card->chained_size, card->came, card->opening[4]);
    card->chained_size += card->opening[4];
    if (card->opening[0] != CHAINED) {
        answer_put(card);
        return;
    }
    card->chains = true;
    memcpy(card->chain, card->opening, sizeof card->chain);
    card->chain[0] = 0x00;
    card->outcome = JOINS;
    announce(card, 0);
}

/* The answer after all data were sent. */
static void answer_sent(struct card *card)
{
    const size_t left = left_of(&card->sends) - count_of(card->opening[4]);
    card->sends.sent += count_of(card->opening[4]);
    card->outcome = LEAVES;
    card->leaves_response = left > 0;
    announce(card, left);
}

/* Makes the decided outcome take effect. */
static void settle(struct card *card)
{
    const bool is_pending = card->outcome == SELECTS
        || (card->outcome == LEAVES && card->leaves_response);
    if (card->outcome == STORES)
        store(card, card->stored_tag, card->stored, card->chained_size);
    if (card->outcome == SELECTS)
        card->is_selected = true;
    if (card->outcome != JOINS) {
        card->chains = false;
        memset(card->chained, 0, card->chained_size);
        card->chained_size = 0;
    }
    card->stored = NULL;
    card->has_response = is_pending;
    if (is_pending)
        card->response = card->sends;
}

#ifdef BY_CHARACTERS

/* Finds the next run of data to send. */
static void next_run(struct card *card)
{
    const struct response *response = &card->sends;
    const size_t place = response->sent + card->moved;
    const size_t left = count_of(card->opening[4]) - card->moved;
    if (left == 0)
        return;
    if (place < response->len) {
        card->out = response->front + place;
        card->outs = less(response->len - place, left);
    } else {
        card->out = response->entry->value + place - response->len;
        card->outs = left;
    }
    card->moved += card->outs;
}

#endif

static uint8_t first_status(struct card *card)
{
    card->stage = CARD_SECOND_STATUS;
    return card->sw1;
}

/* The first character after a header. */
static uint8_t first_character(struct card *card)
{
    const uint8_t ins = card->opening[1];
    if (!judge(card))
        return first_status(card);
    card->moved = 0;
    if (ins == GET_DATA || ins == GET_RESPONSE) {
        card->stage = CARD_SENDING;
#ifdef BY_CHARACTERS
        next_run(card);
#endif
        return ins;
    }
    if (card->opening[4] == 0) {
        answer_data(card);
        return first_status(card);
    }
    card->stage = CARD_RECEIVING;
#ifdef BY_CHARACTERS
    card->in = card->came;
    card->ins = card->opening[4];
#endif
    return ins;
}

#ifndef BY_CHARACTERS

static uint8_t byte_of(const struct response *response, size_t at)
{
    const size_t place = response->sent + at;
    return place < response->len ? response->front[place]
                                 : response->entry->value[place - response->len];
}

#endif

enum turn card_turn(struct card *card, uint8_t *byte)
{
#ifdef BY_CHARACTERS
    if (card->outs > 0) {
        *byte = *card->out++;
        if (--card->outs == 0)
            next_run(card);
        return SENDS;
    }
#endif
    if (!card->live)
        return DONE;
    switch (card->stage) {
    case CARD_SENDING:
#ifndef BY_CHARACTERS
        if (card->moved < count_of(card->opening[4])) {
            *byte = byte_of(&card->sends, card->moved++);
            return SENDS;
        }
#endif
        answer_sent(card);
        *byte = first_status(card);
        return SENDS;
    case CARD_RECEIVING:
        if (card->moved < card->opening[4])
            return LISTENS;
        answer_data(card);
        *byte = first_status(card);
        return SENDS;
    case CARD_OPENING:
        if (card->taken < sizeof card->opening)
            return LISTENS;
        *byte = first_character(card);
        return SENDS;
    default:
        *byte = card->sw2;
        settle(card);
        memset(card->came, 0, sizeof card->came);
        card->stage = CARD_OPENING;
        card->taken = 0;
        return SENDS;
    }
}

#ifndef BY_CHARACTERS

/* ---- By buffers ------------------------------------------------------------------------------ */

enum turn terminal_send_bytes(struct terminal *terminal, uint8_t *bytes, size_t room, size_t *n)
{
    size_t at = 0;
    enum turn turn = SENDS;
    *n = 0;
    if (!terminal->live)
        return DONE;
    if (terminal->stage == HOST_MOVING && !terminal->asks) {
        const size_t run = less(terminal->until - terminal->moved, room);
        memcpy(bytes, terminal->content + terminal->from + terminal->moved, run);
        terminal->moved += run;
        if (terminal->moved == terminal->until)
            terminal->stage = HOST_AWAITING;
        at = run;
    }
    while (at < room && (turn = terminal_next(terminal, bytes + at)) == SENDS)
        at++;
    *n = at;
    return turn;
}

enum fault terminal_receive_bytes(struct terminal *terminal, const uint8_t *bytes, size_t n,
                                  size_t *taken)
{
    size_t at = 0;
    enum fault fault = NO_FAULT;
    *taken = 0;
    if (!terminal->live)
        return EMPTY;
    while (at < n) {
        if (terminal->stage == HOST_MOVING && terminal->asks) {
            size_t run = less(terminal->until - terminal->moved, n - at);
            run = less(run, RESPONSE_LIMIT - terminal->gathered);
            memcpy(terminal->response + terminal->gathered, bytes + at, run);
            terminal->gathered += run;
            terminal->moved += run;
            at += run;
            if (terminal->moved == terminal->until)
                terminal->stage = HOST_AWAITING;
            if (run > 0)
                continue;
        }
        fault = terminal_take(terminal, bytes[at]);
        if (fault != NO_FAULT)
            break;
        at++;
    }
    *taken = at;
    return fault;
}

enum turn card_send_bytes(struct card *card, uint8_t *bytes, size_t room, size_t *n)
{
    size_t at = 0;
    enum turn turn = SENDS;
    *n = 0;
    if (!card->live)
        return DONE;
    while (at < room) {
        if (card->stage == CARD_SENDING) {
            const struct response *response = &card->sends;
            size_t run = less(count_of(card->opening[4]) - card->moved, room - at);
            const size_t place = response->sent + card->moved;
            size_t front = 0;
            if (place < response->len) {
                front = less(response->len - place, run);
                memcpy(bytes + at, response->front + place, front);
            }
            if (run > front)
                memcpy(bytes + at + front, response->entry->value + place + front - response->len,
                       run - front);
            card->moved += run;
            at += run;
            if (at == room)
                break;
        }
        turn = card_turn(card, bytes + at);
        if (turn != SENDS)
            break;
        at++;
    }
    *n = at;
    return turn;
}

enum fault card_receive_bytes(struct card *card, const uint8_t *bytes, size_t n, size_t *taken)
{
    size_t at = 0;
    enum fault fault = NO_FAULT;
    *taken = 0;
    if (!card->live)
        return EMPTY;
    if (card->stage == CARD_RECEIVING) {
        at = less(card->opening[4] - card->moved, n);
        memcpy(card->came + card->moved, bytes, at);
        card->moved += at;
    }
    while (at < n && (fault = card_take(card, bytes[at])) == NO_FAULT)
        at++;
    *taken = at;
    return fault;
}

#endif
