/* A plugin: it builds a card that answers a SELECT, in its own memory. */
#include <galliumtoad.h>

#ifdef GT_ARENA_SIZE
#include "arena.c"
size_t plugin_peak(void) { return gt_arena_peak(); }
size_t plugin_taken(void) { return gt_arena_used(); }
#else
size_t plugin_peak(void) { return 1; }
size_t plugin_taken(void) { return 0; }
#endif

/* The status of a SELECT at its card, or 0. */
unsigned plugin_status(void) {
    static const uint8_t aid[] = { 0xA0, 0x00, 0x00, 0x00, 0x03, 0x10, 0x10 };
    gt_card card = GT_INIT;
    gt_session session = GT_INIT;
    uint8_t data[GT_OBJECT_LIMIT];
    uint16_t status = 0;
    size_t n;
    if (gt_version_fits() && gt_card_new(&card) == GT_OK
        && gt_card_app(&card, aid, sizeof aid) == GT_OK && gt_card_finish(&card) == GT_OK
        && gt_session_start(&session, &card) == GT_OK
        && gt_session_select(&session, aid, sizeof aid, &status, data, sizeof data, &n) != GT_OK)
        status = 0;
    gt_session_free(&session);
    gt_card_free(&card);
    return status;
}
