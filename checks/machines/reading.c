/* Plays what reads bytes: objects, answers to reset, PPS, and texts. */
#include "sum.h"

static uint8_t bytes[60];

static void mix_object(const gt_object *it)
{
    mix(it->tag);
    mix(it->level);
    mix(it->constructed);
    mix(it->place);
    mix(it->size);
    mix(it->value);
    mix(it->length);
}

static void read_objects(void)
{
    static gt_object objects[20];
    const uint32_t path[3] = { 0x6F, 0x84, 0x50 };
    size_t n = fill(bytes, sizeof bytes), count = 1, place = 2, i, room = any(20), steps = any(4);
    if (code(gt_objects(bytes, n, objects, room, &count, &place)) == GT_OK)
        for (i = 0; i < count && i < room; i++)
            mix_object(&objects[i]);
    mix(count);
    mix(place);
    if (code(gt_find(bytes, n, path, steps, objects, &place)) == GT_OK)
        mix_object(objects);
    mix(place);
    code(gt_is_object(bytes, n, any(2) ? 0x6F : 0x5F20));
}

static void mix_t1(const gt_atr_t1 *t1)
{
    mix(t1->ifsc);
    mix(t1->edc);
    mix(t1->bwi);
    mix(t1->cwi);
    mix(t1->cwt_etu);
    mix(t1->bwt_etu);
    mix(t1->bgt_etu);
    mix(t1->bwt_cycles);
}

static void mix_atr(const gt_atr *atr)
{
    mix(atr->length);
    mix(atr->historical);
    mix(atr->historical_count);
    mix(atr->category);
    mix(atr->convention);
    mix_bytes(atr->protocols, atr->protocol_count);
    mix(atr->names_15);
    mix(atr->rate_code);
    mix(atr->di);
    mix(atr->extra_guard_time);
    mix(atr->waiting_integer);
    mix(atr->specific);
    mix(atr->specific_t);
    mix(atr->can_change);
    mix(atr->implicit);
    mix(atr->clock_stop);
    mix(atr->classes);
    mix(atr->fi);
    mix(atr->max_khz);
    mix(atr->guard_etu);
    mix(atr->guard_etu_t1);
    mix(atr->guard_indicated);
    mix(atr->waiting_time);
    mix_t1(&atr->t1);
}

static void read_answer_to_reset(void)
{
    gt_atr atr = { 0 };
    size_t n = fill(bytes, 33), place = 2;
    bytes[0] = any(8) ? 0x3B : 0x3F;
    /* one or two interface bytes, and as many historical bytes as there are */
    bytes[1] = (uint8_t)(any(4) << 4 | (n > 4 ? n - 4 : 0));
    if (code(gt_atr_read(bytes, n, &atr, &place)) == GT_OK)
        mix_atr(&atr);
    mix(place);
}

static void ask_for_rates(void)
{
    uint8_t request[GT_PPS_LIMIT];
    /* apart, since the arguments of a call are evaluated in any order */
    uint8_t t = (uint8_t)any(16);
    uint16_t first = (uint16_t)any(257), second = (uint16_t)any(257);
    size_t n = 0;
    if (code(gt_pps_request(t, first, second, GT_ABSENT, request, &n)) != GT_OK)
        return;
    mix_bytes(request, n);
    code(gt_pps_agreed(request, n, request, any(5) ? n : n - 1));
}

static void mix_text(const char *text)
{
    size_t n = 0;
    while (text[n] != 0)
        n++;
    mix_bytes((const uint8_t *)text, n);
}

static void read_texts(void)
{
    char words[GT_WORDS_ROOM];
    uint8_t head[6], cla = (uint8_t)any(256), ins = (uint8_t)any(256);
    uint16_t status = (uint16_t)(0x6000 + any(0x4000)), length = (uint16_t)any(0x10000);
    size_t n = 0;
    mix_text(gt_text(-(int32_t)any(80)));
    mix_text(gt_status_text(status));
    mix(gt_status_words(cla, ins, status, words, sizeof words));
    mix_text(words);
    mix(gt_version());
    mix((uint64_t)gt_version_fits());
    if (code(gt_head(any(0x20000), length, head, &n)) == GT_OK)
        mix_bytes(head, n);
}

void read_bytes(void)
{
    read_objects();
    read_answer_to_reset();
    ask_for_rates();
    read_texts();
}
