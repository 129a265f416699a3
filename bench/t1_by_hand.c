#include "t1_by_hand.h"

#include <string.h>

/* The bits of a PCB: an R-block, those of it without N(R) and its reason, the place of N(R); MORE,
 * and the place of N(S) in an I-block. Then two whole PCBs. */
enum {
    R = 0x80, R_BITS = 0xEC, NR = 4, MORE = 0x20, NS = 6, IFS_REQUEST = 0xC1, IFS_RESPONSE = 0xE1
};

/* The exclusive-or of all bytes, eight at a time. */
static uint8_t sum_of(const uint8_t *bytes, size_t n)
{
    uint64_t words = 0, word;
    uint8_t rest = 0;
    for (; n >= sizeof word; n -= sizeof word, bytes += sizeof word) {
        memcpy(&word, bytes, sizeof word);
        words ^= word;
    }
    for (; n > 0; n--)
        rest ^= *bytes++;
    words ^= words >> 32;
    words ^= words >> 16;
    words ^= words >> 8;
    return rest ^ (uint8_t)words;
}

static size_t write_block(uint8_t *block, unsigned pcb, const uint8_t *info, size_t n)
{
    block[0] = 0;
    block[1] = (uint8_t)pcb;
    block[2] = (uint8_t)n;
    if (n > 0)
        memcpy(block + 3, info, n);
    block[3 + n] = (uint8_t)(pcb ^ n ^ sum_of(info, n));
    return n + 4;
}

static bool is_valid(const uint8_t *block, size_t n)
{
    if (n < 4 || block[0] != 0 || block[2] == 255 || n != block[2] + (size_t)4)
        return false;
    return sum_of(block, n) == 0;
}

static size_t write_field(uint8_t *block, unsigned number, const struct t1_buffer *from,
                          size_t place, size_t until)
{
    const unsigned more = until < from->n ? MORE : 0;
    return write_block(block, number << NS | more, from->bytes + place, until - place);
}

static size_t least(size_t one, size_t other)
{
    return one < other ? one : other;
}

/* A call by pointer, so that a compiler does not drop it. */
static void *(*const volatile wipe)(void *, int, size_t) = memset;

/* Clears what a buffer holds, as the library does where it drops or replaces it. */
static void clear(struct t1_buffer *buffer)
{
    wipe(buffer->bytes, 0, buffer->n);
    buffer->n = 0;
}

static bool add(struct t1_buffer *to, const uint8_t *bytes, size_t n)
{
    if (n > sizeof to->bytes - to->n)
        return false;
    memcpy(to->bytes + to->n, bytes, n);
    to->n += n;
    return true;
}

static size_t send_next(struct t1_card *c, uint8_t *answer)
{
    c->from = c->until;
    c->until = least(c->from + c->ifsd, c->response.n);
    c->next ^= 1;
    c->is_answering = true;
    return write_field(answer, c->next ^ 1U, &c->response, c->from, c->until);
}

static size_t carry_out(struct t1_card *c, uint8_t *answer)
{
    size_t n = 0;
    int32_t code;
    clear(&c->response);
    code = gt_card_apdu(c->card, c->command.bytes, c->command.n, c->response.bytes, GT_ANSWER_LIMIT,
                        &n);
    if (code != GT_OK) {
        c->response.bytes[0] = code == GT_INVALID_INS ? 0x6D : 0x67;
        c->response.bytes[1] = 0x00;
        n = 2;
    }
    c->response.n = n;
    clear(&c->command);
    c->until = 0;
    return send_next(c, answer);
}

size_t t1_card_takes(struct t1_card *c, const uint8_t *block, size_t n,
                     uint8_t answer[GT_BLOCK_LIMIT])
{
    const unsigned pcb = block[1];
    const bool is_whole = is_valid(block, n);
    if (is_whole && pcb == IFS_REQUEST) {
        c->ifsd = block[3];
        return write_block(answer, IFS_RESPONSE, block + 3, 1);
    }
    if (is_whole && pcb < R && (pcb >> NS & 1) == c->due && c->until == c->response.n
            && add(&c->command, block + 3, block[2])) {
        c->due ^= 1;
        c->is_answering = false;
        if ((pcb & MORE) == 0)
            return carry_out(c, answer);
    } else if (is_whole && (pcb & R_BITS) == R) {
        const bool is_next = (pcb >> NR & 1) == c->next;
        if (is_next && c->until < c->response.n)
            return send_next(c, answer);
        if (!is_next && c->is_answering)
            return write_field(answer, c->next ^ 1U, &c->response, c->from, c->until);
    }
    return write_block(answer, R | (unsigned)c->due << NR, NULL, 0);
}

static size_t send_field(struct t1_terminal *t, uint8_t *block)
{
    t->until = least(t->from + t->ifsc, t->command.n);
    return write_field(block, t->next, &t->command, t->from, t->until);
}

size_t t1_terminal_begins(struct t1_terminal *t, const uint8_t *apdu, size_t n,
                          uint8_t block[GT_BLOCK_LIMIT])
{
    clear(&t->command);
    clear(&t->response);
    t->from = 0;
    return add(&t->command, apdu, n) ? send_field(t, block) : 0;
}

size_t t1_terminal_takes(struct t1_terminal *t, const uint8_t *answer, size_t n,
                         uint8_t block[GT_BLOCK_LIMIT])
{
    const unsigned pcb = answer[1];
    const bool is_whole = is_valid(answer, n);
    if (is_whole && pcb < R && (pcb >> NS & 1) == t->due && t->until == t->command.n
            && add(&t->response, answer + 3, answer[2])) {
        t->due ^= 1;
        if (t->from < t->until)
            t->next ^= 1;
        t->from = t->until;
        if ((pcb & MORE) == 0)
            return 0;
    } else if (is_whole && (pcb & R_BITS) == R && t->from < t->until) {
        if ((pcb >> NR & 1) != t->next && t->until < t->command.n) {
            t->next ^= 1;
            t->from = t->until;
        }
        return send_field(t, block);
    }
    return write_block(block, R | (unsigned)t->due << NR, NULL, 0);
}
