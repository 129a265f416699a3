/* A card of your own application at T=0, written by hand in C, beside gt_card_own. It copies each
 * command out and each response in, and wipes both when they end. It carries 61XX, 6CXX and GET
 * RESPONSE, and cuts no announcement by a plan. */
#ifndef OWN_BY_HAND_H
#define OWN_BY_HAND_H

#include <stdbool.h>
#include <stddef.h>
#include <stdint.h>

enum { OWN_LIMIT = 4096 };

enum own_turn { OWN_EMPTY = -1, OWN_LISTENS, OWN_SENDS, OWN_COMMAND };

enum own_stage {
    OWN_HEADER,
    OWN_ASKING,                 /* for the data of a command */
    OWN_DATA,
    OWN_WAITING,                /* for the response */
    OWN_HANDING,                /* it sends a part of the response next */
    OWN_OUT,
    OWN_FIRST_STATUS,
    OWN_SECOND_STATUS
};

/* As gt_command. */
struct own_command {
    uint8_t cla, ins, p1, p2;
    uint16_t le;
    uint8_t size;
    uint8_t data[255];
};

struct own_card {
    bool live;
    uint8_t directions[32];
    enum own_stage stage;
    uint8_t header[5];
    size_t taken, moved, until;
    uint8_t came[255];
    uint8_t *response;
    size_t size, from;          /* of the response: its bytes, and how many were sent */
    uint16_t status;
    bool is_announced;          /* GET RESPONSE fetches the rest */
    bool is_kept;               /* the same header with P3 `again` gets it */
    uint8_t kept[4], again;
    uint8_t sw1, sw2;
    bool has_settled;
};

bool own_command(const struct own_card *card, struct own_command *command);
bool own_respond(struct own_card *card, const uint8_t *bytes, size_t n, uint16_t status);
enum own_turn own_turn(struct own_card *card, uint8_t *byte);
bool own_take(struct own_card *card, uint8_t byte);
enum own_turn own_send_bytes(struct own_card *card, uint8_t *bytes, size_t room, size_t *n);
bool own_receive_bytes(struct own_card *card, const uint8_t *bytes, size_t n, size_t *taken);

#endif
