/* Reads an object of a card in the first PC/SC reader. */
#include <galliumtoad.h>

#include <stdio.h>
#include <winscard.h>

static const uint8_t AID[] = { 0xA0, 0x00, 0x00, 0x00, 0x03, 0x10, 0x10 };

/* Passes the TPDUs of the operation in progress; returns the answer's status, or 0 after a
 * fault. */
static uint16_t pass(gt_terminal *terminal, SCARDHANDLE card, uint8_t *data, size_t room, size_t *n)
{
    uint8_t tpdu[GT_TPDU_LIMIT], answer[GT_ANSWER_LIMIT];
    uint16_t status = 0;
    size_t size, most;
    while (gt_terminal_tpdu(terminal, tpdu, &size, &most) == GT_OK) {
        DWORD got = sizeof answer;
        if (SCardTransmit(card, SCARD_PCI_T0, tpdu, size, NULL, answer, &got) != SCARD_S_SUCCESS
            || gt_terminal_answered(terminal, answer, got) != GT_OK)
            return 0;
    }
    return gt_terminal_answer(terminal, &status, data, room, n) == GT_OK ? status : 0;
}

/* Selects the application, and reads the name; 1 if both got 9000. */
static int read_name(gt_terminal *terminal, SCARDHANDLE card, uint8_t *data, size_t room, size_t *n)
{
    return gt_terminal_new(terminal) == GT_OK
        && gt_terminal_select(terminal, AID, sizeof AID) == GT_OK
        && pass(terminal, card, data, room, n) == 0x9000
        && gt_terminal_get(terminal, 0x5F20) == GT_OK
        && pass(terminal, card, data, room, n) == 0x9000;
}

/* Connects to the card of the first reader, and keeps other programs from it. */
static int connect_first(SCARDCONTEXT context, SCARDHANDLE *card)
{
    char readers[4096];
    DWORD size = sizeof readers, protocol;
    if (SCardListReaders(context, NULL, readers, &size) != SCARD_S_SUCCESS
        || SCardConnect(context, readers, SCARD_SHARE_SHARED, SCARD_PROTOCOL_T0, card, &protocol)
            != SCARD_S_SUCCESS)
        return 0;
    if (SCardBeginTransaction(*card) == SCARD_S_SUCCESS)
        return 1;
    SCardDisconnect(*card, SCARD_LEAVE_CARD);
    return 0;
}

int main(void)
{
    gt_terminal terminal = GT_INIT;
    uint8_t data[GT_OBJECT_LIMIT];
    SCARDCONTEXT context;
    SCARDHANDLE card;
    size_t n = 0, i;
    int is_read = 0;
    if (SCardEstablishContext(SCARD_SCOPE_SYSTEM, NULL, NULL, &context) != SCARD_S_SUCCESS)
        return 1;
    if (connect_first(context, &card)) {
        is_read = read_name(&terminal, card, data, sizeof data, &n);
        gt_terminal_free(&terminal);
        SCardEndTransaction(card, SCARD_RESET_CARD);
        SCardDisconnect(card, SCARD_LEAVE_CARD);
    }
    SCardReleaseContext(context);
    for (i = 0; is_read && i < n; i++)
        printf("%02X", data[i]);
    puts(is_read ? "" : "not read");
    return !is_read;
}
