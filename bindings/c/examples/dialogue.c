/* Both ends of a dialogue, character by character: a terminal selects an application of a card and
 * reads an object. It prints the characters of the line, as `card_trace play` does. */
#include <galliumtoad.h>

#include <stdio.h>
#include <stdlib.h>

/* `app A0000000031010` and `object 5F20 4A4F45` */
static const uint8_t AID[] = { 0xA0, 0x00, 0x00, 0x00, 0x03, 0x10, 0x10 };
#define NAME 0x5F20u

/* SELECT of that application and GET DATA of that object, each asking for all there is */
static const uint8_t SELECT[] = { 0x00, 0xA4, 0x04, 0x00, 0x07, 0xA0, 0x00,
                                  0x00, 0x00, 0x03, 0x10, 0x10, 0x00 };
static const uint8_t GET[] = { 0x00, 0xCA, 0x5F, 0x20, 0x00 };

static void stop(const char *what, int32_t code)
{
    fprintf(stderr, "%s: %s\n", what, gt_text(code));
    exit(1);
}

static void print_hex(const uint8_t *bytes, size_t n)
{
    size_t i;
    for (i = 0; i < n; i++)
        printf("%02X", bytes[i]);
}

/* Prints a character after those of the same end. */
static void print_character(char *last, char end, uint8_t byte)
{
    if (*last != end)
        printf("%s%c ", *last != '\0' ? "\n" : "", end);
    *last = end;
    print_hex(&byte, 1);
}

static void make_card(gt_card *card)
{
    int32_t code = gt_card_new(card);
    if (code == GT_OK)
        code = gt_card_app(card, AID, sizeof AID);
    if (code == GT_OK)
        code = gt_card_object(card, NAME, (const uint8_t *)"JOE", 3, 0);
    if (code == GT_OK)
        code = gt_card_finish(card);
    if (code != GT_OK)
        stop("the card", code);
}

/* Hands each end's characters to the other until the exchange ends. */
static void talk(gt_exchange *exchange, gt_card *card)
{
    char last = '\0';
    uint8_t byte;
    int32_t code;
    while ((code = gt_exchange_next(exchange, &byte)) != GT_DONE) {
        if (code == GT_SENDS) {
            print_character(&last, '>', byte);
            code = gt_card_take(card, byte);
        } else if (code == GT_OK && (code = gt_card_turn(card, &byte)) == GT_SENDS) {
            print_character(&last, '<', byte);
            code = gt_exchange_take(exchange, byte);
        } else if (code == GT_OK) {
            code = GT_FAILED; /* deadlock */
        }
        if (code != GT_OK)
            stop("the line", code);
    }
    printf("\n");
}

static void carry_out(gt_card *card, const uint8_t *command, size_t n)
{
    gt_exchange exchange = GT_INIT;
    uint8_t data[256];
    uint16_t status;
    size_t length;
    int32_t code = gt_exchange_start(&exchange, command, n);
    if (code != GT_OK)
        stop("the command", code);
    talk(&exchange, card);
    code = gt_exchange_answer(&exchange, &status, data, sizeof data, &length);
    if (code != GT_OK)
        stop("the answer", code);
    printf("= %04X", (unsigned)status);
    if (length > 0)
        printf(" ");
    print_hex(data, length);
    printf("\n");
    gt_exchange_free(&exchange);
}

int main(void)
{
    gt_card card = GT_INIT;
    make_card(&card);
    carry_out(&card, SELECT, sizeof SELECT);
    carry_out(&card, GET, sizeof GET);
    gt_card_free(&card);
    return 0;
}
