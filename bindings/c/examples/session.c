/* A session: a terminal and a card in one program, and every operation carried out to its answer.
 * An object is read, written and read again, and one that is locked is not written. */
#include <galliumtoad.h>

#include <stdio.h>
#include <stdlib.h>

static const uint8_t AID[] = { 0xA0, 0x00, 0x00, 0x00, 0x03, 0x10, 0x10 };

/* A code below 0 is a call that went wrong; what the card thinks of it is the status. */
static void check(const char *what, int32_t code)
{
    if (code >= 0)
        return;
    fprintf(stderr, "%s: %s\n", what, gt_text(code));
    exit(1);
}

static void print(const char *what, uint16_t status, const uint8_t *data, size_t n)
{
    size_t i;
    printf("%s: %04X%s", what, (unsigned)status, n > 0 ? " " : "");
    for (i = 0; i < n; i++)
        printf("%02X", data[i]);
    printf("\n");
}

/* Each application gets its objects before the next `gt_card_app`. */
static void build(gt_card *card)
{
    check("new", gt_card_new(card));
    check("app", gt_card_app(card, AID, sizeof AID));
    check("object", gt_card_object(card, 0x5F20, (const uint8_t *)"JOE", 3, 0));
    check("object", gt_card_object(card, 0x50, (const uint8_t *)"VISA", 4, 1));
    check("finish", gt_card_finish(card));
}

int main(void)
{
    gt_card card = GT_INIT;
    gt_session session = GT_INIT;
    uint8_t data[GT_OBJECT_LIMIT];
    uint16_t status;
    size_t n;

    build(&card);
    check("start", gt_session_start(&session, &card));
    check("select", gt_session_select(&session, AID, sizeof AID, &status, data, sizeof data, &n));
    print("select", status, data, n);
    check("get", gt_session_get(&session, 0x5F20, &status, data, sizeof data, &n));
    print("get", status, data, n);
    check("put", gt_session_put(&session, 0x5F20, (const uint8_t *)"ANN", 3, &status));
    print("put", status, NULL, 0);
    check("get", gt_session_get(&session, 0x5F20, &status, data, sizeof data, &n));
    print("get", status, data, n);
    check("put", gt_session_put(&session, 0x50, (const uint8_t *)"NEW", 3, &status));
    print("put of a locked object", status, NULL, 0);
    check("end", gt_session_end(&session, &card));
    gt_card_free(&card);
    return 0;
}
