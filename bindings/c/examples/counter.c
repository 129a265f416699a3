/* A card of your own application: the command 80 10 00 00 counts, and returns the count. Here it
 * goes by whole commands. By TPDUs, buffers or characters only `carry_out` is another. By buffers
 * and characters a reset may drop a command that was counted: then gt_card_settled returns 0. */
#include <galliumtoad.h>

#include <stdio.h>
#include <stdlib.h>

/* No command brings data to the card. */
static const uint8_t DIRECTIONS[32] = { 0 };

static void check(const char *what, int32_t code)
{
    if (code >= 0)
        return;
    fprintf(stderr, "%s: %s\n", what, gt_text(code));
    exit(1);
}

/* What the application does with the command that waits. */
static void respond(gt_card *card, uint8_t *count)
{
    gt_command command;
    check("command", gt_card_command(card, &command));
    if (command.cla != 0x80 || command.ins != 0x10 || command.p1 || command.p2) {
        check("respond", gt_card_respond(card, NULL, 0, 0x6D00));
        return;
    }
    ++*count;
    check("respond", gt_card_respond(card, count, 1, 0x9000));
}

/* Carries a command out, and prints the response. */
static void carry_out(gt_card *card, uint8_t *count, const uint8_t *apdu, size_t size)
{
    uint8_t response[GT_APDU_LIMIT];
    size_t i, n;
    int32_t code = gt_card_apdu(card, apdu, size, response, sizeof response, &n);
    while (code == GT_COMMAND) {
        respond(card, count);
        code = gt_card_apdu(card, NULL, 0, response, sizeof response, &n);
    }
    check("apdu", code);
    for (i = 0; i < n; i++)
        printf("%02X", response[i]);
    printf("\n");
}

int main(void)
{
    static const uint8_t COUNT[] = { 0x80, 0x10, 0x00, 0x00, 0x00 };
    static const uint8_t OTHER[] = { 0x80, 0x12, 0x00, 0x00, 0x00 };
    gt_card card = GT_INIT;
    uint8_t count = 0;
    check("own", gt_card_own(&card, DIRECTIONS));
    carry_out(&card, &count, COUNT, sizeof COUNT);
    carry_out(&card, &count, COUNT, sizeof COUNT);
    carry_out(&card, &count, OTHER, sizeof OTHER);
    gt_card_free(&card);
    return 0;
}
