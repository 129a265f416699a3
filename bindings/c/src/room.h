/* The library's memory from buffers of the caller, for programs without a heap: link room.c in
 * place of heap.c or arena.c. A room is memory for one handle: an exchange, a terminal, an end at
 * T=1, or a card of your own. Begin it before the handle, and enter it before each call with the
 * handle, also the one that frees it:
 *
 *     static unsigned char bytes[GT_ROOM_OF(GT_TERMINAL_ROOM, 256)];
 *     static gt_room room;
 *     gt_terminal terminal = GT_INIT;
 *     int32_t code = gt_room_begin(&room, GT_TERMINAL_ROOM, bytes, sizeof bytes, 256);
 *     if (code == GT_OK)
 *         code = gt_terminal_new_within(&terminal, 256);
 *
 * `gt_room_begin` returns GT_MEMORY if the buffer is too small. Then no call with the handle does,
 * if the last number is the most of its bytes. It counts the limit on a response, each command and
 * its data, and each response of a card of your own.
 *
 * A room has slots of one size, and a larger one for the handle. A slot is wiped when it is freed.
 * There is no lock: one thread, or several that take turns. */
#ifndef GALLIUMTOAD_ROOM_H
#define GALLIUMTOAD_ROOM_H

#include <galliumtoad.h>

#ifdef __cplusplus
extern "C" {
#endif

/* what a room is for */
enum gt_room_kind { GT_EXCHANGE_ROOM, GT_TERMINAL_ROOM, GT_T1_ROOM, GT_OWN_CARD_ROOM };

typedef struct gt_room {
    unsigned char *slots;
    size_t count;   /* of slots */
    size_t first;   /* the bytes of the first slot, and of each other */
    size_t each;
} gt_room;

/* The bytes of a buffer for a room: a constant, if `longest` is one. */
#define GT_ROOM_OF(kind, longest) \
    (15 + GT_ROOM_FIRST_(kind, longest) + 16 * (size_t)GT_ROOM_COUNT_(kind) + \
     (GT_ROOM_COUNT_(kind) - 1) * GT_ROOM_EACH_(kind, longest))

/* Only for this file and room.c: the slots of a room, the bytes of a handle, multiples of 16. */
#define GT_ROOM_COUNT_(kind) \
    ((kind) == GT_OWN_CARD_ROOM ? 8u : (kind) == GT_T1_ROOM ? 4u : 5u)
#define GT_ROOM_HANDLE_(kind) \
    ((kind) == GT_OWN_CARD_ROOM ? (size_t)1264 : (kind) == GT_T1_ROOM ? (size_t)368 : (size_t)464)
#define GT_ROOM_UP_(n) (((size_t)(n) + 15) / 16 * 16)
#define GT_ROOM_MOST_(n, m) ((size_t)(n) > (size_t)(m) ? (size_t)(n) : (size_t)(m))
/* An end at T=1 and a card have room for any short command. What a card gathers doubles. */
#define GT_ROOM_EACH_(kind, longest) \
    GT_ROOM_UP_((kind) == GT_OWN_CARD_ROOM ? 2 * GT_ROOM_MOST_(longest, GT_APDU_LIMIT) \
                : (kind) == GT_T1_ROOM     ? GT_ROOM_MOST_(longest, GT_APDU_LIMIT) \
                                           : (size_t)(longest))
#define GT_ROOM_FIRST_(kind, longest) \
    GT_ROOM_UP_(GT_ROOM_MOST_(GT_ROOM_HANDLE_(kind), GT_ROOM_EACH_(kind, longest)))

/* Makes a room of a buffer, and enters it. All of the buffer is wiped.
 *
 * - GT_OK.
 * - GT_MEMORY: `size` is less than GT_ROOM_OF. Nothing has changed.
 * - GT_NULL: `room` or `bytes` is NULL. */
int32_t gt_room_begin(gt_room *room, enum gt_room_kind kind, void *bytes, size_t size,
                      size_t longest);

/* From now on the library takes memory from this room; from none, if it is NULL. */
void gt_room_enter(gt_room *room);

#ifdef __cplusplus
}
#endif

#endif
