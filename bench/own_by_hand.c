#include "own_by_hand.h"

#include <stdlib.h>
#include <string.h>

enum { GET_RESPONSE = 0xC0 };

/* A call by pointer, so that a compiler does not drop it. */
static void *(*const volatile wipe)(void *, int, size_t) = memset;

static size_t less(size_t one, size_t other)
{
    return one < other ? one : other;
}

static size_t wanted(const struct own_card *card)
{
    return card->header[4] == 0 ? 256 : card->header[4];
}

static bool go_to_card(const struct own_card *card)
{
    return card->directions[card->header[1] / 8] >> (card->header[1] % 8) & 1;
}

static inline void drop(struct own_card *card)
{
    if (card->response != NULL) {
        wipe(card->response, 0, card->size);
        free(card->response);
        card->response = NULL;
    }
    card->size = card->from = 0;
    card->is_announced = card->is_kept = false;
}

static inline void end_with(struct own_card *card, unsigned status)
{
    card->sw1 = (uint8_t)(status >> 8);
    card->sw2 = (uint8_t)status;
    card->stage = OWN_FIRST_STATUS;
}

/* Ends a TPDU after which this is left of the response. */
static inline void end_before(struct own_card *card, size_t left)
{
    if (left > 0) {
        card->is_announced = true;
        end_with(card, 0x6100 | (left < 256 ? (unsigned)left : 0));
    } else {
        end_with(card, card->status);
        drop(card);
    }
}

/* Sends as much of the response as P3 asks for, or says how much there is. */
static inline void hand_out(struct own_card *card, bool fetches)
{
    const size_t left = card->size - card->from;
    if (left == 0) {
        end_before(card, 0);
    } else if (left < wanted(card)) {
        end_with(card, 0x6C00 | (unsigned)left);
        card->is_announced = fetches;
        card->is_kept = !fetches;
        memcpy(card->kept, card->header, sizeof card->kept);
        card->again = (uint8_t)left;
    } else {
        card->moved = 0;
        card->until = wanted(card);
        card->stage = OWN_HANDING;
    }
}

static inline void judge(struct own_card *card)
{
    const uint8_t ins = card->header[1];
    if (ins >> 4 == 6 || ins >> 4 == 9) {
        drop(card);
        end_with(card, 0x6D00);
    } else if (ins == GET_RESPONSE && card->is_announced) {
        hand_out(card, true);
    } else if (ins == GET_RESPONSE) {
        drop(card);
        end_with(card, 0x6985);
    } else if (card->is_kept && memcmp(card->kept, card->header, sizeof card->kept) == 0
               && card->header[4] == card->again) {
        hand_out(card, false);
    } else {
        drop(card);
        card->moved = 0;
        card->until = go_to_card(card) ? card->header[4] : 0;
        card->stage = card->until > 0 ? OWN_ASKING : OWN_WAITING;
    }
}

bool own_command(const struct own_card *card, struct own_command *command)
{
    if (!card->live || card->stage != OWN_WAITING)
        return false;
    memset(command, 0, sizeof *command);
    command->cla = card->header[0];
    command->ins = card->header[1];
    command->p1 = card->header[2];
    command->p2 = card->header[3];
    if (go_to_card(card)) {
        command->size = (uint8_t)card->until;
        memcpy(command->data, card->came, card->until);
    } else {
        command->le = (uint16_t)wanted(card);
    }
    return true;
}

bool own_respond(struct own_card *card, const uint8_t *bytes, size_t n, uint16_t status)
{
    if (!card->live || card->stage != OWN_WAITING || n > OWN_LIMIT || status >> 8 == 0x61
            || status >> 8 == 0x6C)
        return false;
    if (n > 0) {
        if ((card->response = malloc(n)) == NULL)
            return false;
        memcpy(card->response, bytes, n);
    }
    card->size = n;
    card->from = 0;
    card->status = status;
    card->has_settled = false;
    if (go_to_card(card)) {
        wipe(card->came, 0, card->until);
        end_before(card, n);
    } else {
        hand_out(card, false);
    }
    return true;
}

static inline void moved_out(struct own_card *card)
{
    if (card->moved == card->until)
        end_before(card, card->size - card->from);
}

/* The next character that is no data of the response. */
static inline enum own_turn next_steering(struct own_card *card, uint8_t *byte)
{
    switch (card->stage) {
    case OWN_ASKING:
        *byte = card->header[1];
        card->stage = OWN_DATA;
        return OWN_SENDS;
    case OWN_HANDING:
        *byte = card->header[1];
        card->stage = OWN_OUT;
        return OWN_SENDS;
    case OWN_FIRST_STATUS:
        *byte = card->sw1;
        card->stage = OWN_SECOND_STATUS;
        return OWN_SENDS;
    case OWN_SECOND_STATUS:
        *byte = card->sw2;
        card->stage = OWN_HEADER;
        card->taken = 0;
        card->has_settled = true;
        return OWN_SENDS;
    case OWN_WAITING:
        return OWN_COMMAND;
    default:
        return OWN_LISTENS;
    }
}

enum own_turn own_turn(struct own_card *card, uint8_t *byte)
{
    if (!card->live)
        return OWN_EMPTY;
    if (card->stage != OWN_OUT)
        return next_steering(card, byte);
    *byte = card->response[card->from++];
    card->moved++;
    moved_out(card);
    return OWN_SENDS;
}

bool own_take(struct own_card *card, uint8_t byte)
{
    if (!card->live)
        return false;
    if (card->stage == OWN_DATA) {
        card->came[card->moved] = byte;
        if (++card->moved == card->until)
            card->stage = OWN_WAITING;
        return true;
    }
    if (card->stage == OWN_HEADER) {
        card->header[card->taken] = byte;
        if (++card->taken == sizeof card->header)
            judge(card);
        return true;
    }
    return false;
}

enum own_turn own_send_bytes(struct own_card *card, uint8_t *bytes, size_t room, size_t *n)
{
    enum own_turn turn = OWN_SENDS;
    size_t at = 0;
    *n = 0;
    if (!card->live)
        return OWN_EMPTY;
    while (at < room) {
        if (card->stage == OWN_OUT) {
            const size_t run = less(card->until - card->moved, room - at);
            memcpy(bytes + at, card->response + card->from, run);
            at += run;
            card->from += run;
            card->moved += run;
            moved_out(card);
        } else {
            turn = next_steering(card, bytes + at);
            if (turn != OWN_SENDS)
                break;
            at++;
        }
    }
    *n = at;
    return turn;
}

bool own_receive_bytes(struct own_card *card, const uint8_t *bytes, size_t n, size_t *taken)
{
    size_t at = 0;
    *taken = 0;
    if (!card->live)
        return false;
    while (at < n) {
        size_t run;
        if (card->stage == OWN_HEADER) {
            run = less(sizeof card->header - card->taken, n - at);
            memcpy(card->header + card->taken, bytes + at, run);
            if ((card->taken += run) == sizeof card->header)
                judge(card);
        } else if (card->stage == OWN_DATA) {
            run = less(card->until - card->moved, n - at);
            memcpy(card->came + card->moved, bytes + at, run);
            if ((card->moved += run) == card->until)
                card->stage = OWN_WAITING;
        } else {
            *taken = at;
            return false;
        }
        at += run;
    }
    *taken = at;
    return true;
}
