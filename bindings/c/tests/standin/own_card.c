/* A card with an application of its own, for serial_card and ifd.c: PUT DATA stores a byte, and any
 * other command reads it. The second command that comes asks for more time first, if it may. */
#include "table.h"

static int32_t keeps_a_byte(gt_card *card, const gt_command *command)
{
    static uint8_t kept;
    static int commands;
    if (++commands == 2 && gt_card_more_time(card, 3) == GT_OK)
        return GT_OK;
    if (command->ins != 0xDA)
        return gt_card_respond(card, &kept, 1, 0x9000);
    kept = command->size > 0 ? command->data[0] : 0;
    return gt_card_respond(card, NULL, 0, 0x9000);
}

__attribute__((constructor)) static void has_an_application(void)
{
    table_own = keeps_a_byte;
}
