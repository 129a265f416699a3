/* Tests that `gt_card_tpdu` and `gt_card_apdu` wipe their copy of the input. A card amid a TPDU
 * stays off the stack. `forwards.c` tests that they copy it. */
#ifndef _GNU_SOURCE
#define _GNU_SOURCE /* for pthread_attr_setstack in strict C99 */
#endif
#include "galliumtoad.h"
#include "check.h"

#include <pthread.h>
#include <stdlib.h>

enum { STACK = 1 << 20, ONE = 0x5A, OTHER = 0xC7 };

static const uint8_t AID[] = { 0xA0, 0x00, 0x00, 0x00, 0x03, 0x10, 0x10 };
static gt_card card = GT_INIT;

typedef int32_t carry(gt_card *, const uint8_t *, size_t, uint8_t *, size_t, size_t *);
static carry *carries;

static int32_t code;

/* A length field that is one too many: neither a TPDU nor a command, so the card looks at no other
 * byte. No call follows, since it would overwrite the copy on the stack. */
static void *refused(void *sent) {
    uint8_t answer[2] = { 0 };
    size_t len;
    code = carries(&card, (const uint8_t *)sent, 259, answer, sizeof answer, &len);
    code = code == GT_OK ? answer[0] : code;
    return NULL;
}

static void *leaves(void *tpdu) {
    volatile uint8_t left = ((const uint8_t *)tpdu)[258];
    (void)left;
    return NULL;
}

static gt_card mine = GT_INIT;

/* A card of one's own has taken 250 bytes of data. */
static void take_data(const uint8_t *tpdu) {
    static const uint8_t header[] = { 0x00, 0x20, 0x00, 0x00, 0xFF };
    uint8_t byte;
    size_t n;
    CHECK(gt_card_reset(&mine), GT_OK);
    CHECK(gt_card_receive_bytes(&mine, header, sizeof header, &n), GT_OK);
    CHECK(gt_card_turn(&mine, &byte), GT_SENDS);
    CHECK(gt_card_receive_bytes(&mine, tpdu + 5, 250, &n), GT_OK);
}

/* Such a card refuses to begin T=1, or is reset. */
static int32_t (*ends)(gt_card *);

static void *dropped(void *tpdu) {
    (void)tpdu;
    code = ends(&mine);
    return NULL;
}

static void *(*volatile runs)(void *);

/* Runs `runs` deep in the stack, where the end of the thread does not write. */
static void *far_down(void *tpdu) {
    volatile uint8_t room[1 << 14];
    const size_t any = (uintptr_t)tpdu % sizeof room; /* so that all of it is there */
    room[any] = 1;
    runs(tpdu);
    return room[any] ? NULL : tpdu;
}

/* Runs a function on a stack of zeros. All bytes of its input that the library does not read are
 * `secret`. */
static void run_on(unsigned char *stack, void *(*run)(void *), int secret) {
    static uint8_t tpdu[259];
    pthread_attr_t own;
    pthread_t thread;
    memset(tpdu, secret, sizeof tpdu);
    tpdu[4] = 0xFF;
    /* the library reads the header of a command, which may stay on its stack */
    if (carries == gt_card_apdu) memcpy(tpdu, "\x00\xA4\x04\x00", 4);
    runs = run;
    take_data(tpdu);
    memset(stack, 0, STACK);
    CHECK(pthread_attr_init(&own), 0);
    CHECK(pthread_attr_setstack(&own, stack, STACK), 0);
    CHECK(pthread_create(&thread, &own, far_down, tpdu), 0);
    CHECK(pthread_join(thread, NULL), 0);
    CHECK(pthread_attr_destroy(&own), 0);
}

/* Counts the bytes of its input that a function leaves on its stack. Such a place holds one secret
 * after the first run, and the other secret after the second. */
static size_t left_by(void *(*run)(void *)) {
    unsigned char *stack = NULL, *first = (unsigned char *)malloc(STACK);
    size_t i, left = 0;
    if (posix_memalign((void **)&stack, 4096, STACK) != 0 || !first) abort();
    run_on(stack, run, ONE);
    memcpy(first, stack, STACK);
    run_on(stack, run, OTHER);
    for (i = 0; i < STACK; i++) left += first[i] == ONE && stack[i] == OTHER;
    free(stack);
    free(first);
    return left;
}

int main(void) {
    static const uint8_t directions[32] = { 0, 0, 0, 0, 0x01 };
    CHECK(gt_card_own(&mine, directions), GT_OK);
    CHECK(gt_card_new(&card), GT_OK);
    CHECK(gt_card_app(&card, AID, sizeof AID), GT_OK);
    CHECK(gt_card_finish(&card), GT_OK);
    CHECK(left_by(leaves), 1);
    for (int by_commands = 0; by_commands < 2; by_commands++) {
        carries = by_commands ? gt_card_apdu : gt_card_tpdu;
        CHECK(left_by(refused), 0);
        CHECK(code, by_commands ? 0x67 : GT_NO_TPDU);
    }
    for (int is_reset = 0; is_reset < 2; is_reset++) {
        ends = is_reset ? gt_card_reset : gt_card_t1_begin;
        CHECK(left_by(dropped), 0);
        CHECK(code, is_reset ? GT_OK : GT_STATE);
    }
    gt_card_free(&mine);
    gt_card_free(&card);
    return check_result("copied");
}
