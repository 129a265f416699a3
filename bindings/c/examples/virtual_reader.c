/* Readers for pcscd with a card of data objects in each.
 *
 * It is an IFD handler: pcscd loads it, as bindings/c/README.md says, and then shows a reader with
 * a card in it to every PC/SC client. A card's tables and its answer to reset come from the file
 * that the reader's DEVICENAME names, of `app`, `object`, `locked` and `atr` lines. What clients
 * store lasts until pcscd releases the reader, or the file is moved, replaced or changed: that
 * takes the card out, also inside an exchange. A file of that name puts a new card in, a second
 * later.
 *
 * The card uses what its answer to reset offers. At T=0 it carries out a TPDU as a reader's
 * firmware does: `61XX` and `6CXX` reach the client, which sends GET RESPONSE or asks again by
 * itself. An Le after data is dropped. At T=1, and for a card without contacts, the card answers
 * whole commands. */
#define _POSIX_C_SOURCE 200809L

#include "contactless.h"
#include "table.h"
#include "text.h"

#include <ifdhandler.h>

#include <errno.h>
#include <fcntl.h>
#include <string.h>
#include <sys/stat.h>
#include <time.h>
#include <unistd.h>

/* the most bytes of a file's name, with the NUL after it */
#define NAME_ROOM 1024

/* The seconds without a card after one was taken out. The look of a client's reset is not enough:
 * pcscd itself, which looks each 0.4 s, must see that. Otherwise it does not power up the next
 * card. */
#define IS_EMPTY_FOR 1

/* as many readers as a pcscd has */
#define READERS_LIMIT PCSCLITE_MAX_READERS_CONTEXTS

/* A reader, which pcscd calls by its number. It makes no two calls of this handler at once, for all
 * its readers, since TAG_IFD_THREAD_SAFE is not supported. */
struct virtual_reader {
    int is_used, is_powered;
    int has_card;
    int is_refused;         /* the file is invalid, and must change before it is read again */
    struct timespec taken;  /* when the last card was taken out, or 0 */
    DWORD lun;
    char name[NAME_ROOM];   /* of the table's file */
    struct stat seen;       /* what told the file from others when it was read */
    struct table table;
};

static struct virtual_reader readers[READERS_LIMIT];

/* The reader in use with this number, or a free one, whose number is 0; or NULL. */
static struct virtual_reader *find_reader(int is_used, DWORD lun)
{
    size_t i;
    for (i = 0; i < READERS_LIMIT; i++) {
        if (readers[i].is_used == is_used && readers[i].lun == lun)
            return &readers[i];
    }
    return NULL;
}

static struct virtual_reader *reader_of(DWORD lun)
{
    return find_reader(1, lun);
}

static int is_same(const struct stat *one, const struct stat *other)
{
    return one->st_dev == other->st_dev && one->st_ino == other->st_ino
        && one->st_size == other->st_size && one->st_mtim.tv_sec == other->st_mtim.tv_sec
        && one->st_mtim.tv_nsec == other->st_mtim.tv_nsec;
}

/* Whether the slot was empty for so long that pcscd has seen it. */
static int was_empty(const struct virtual_reader *reader)
{
    struct timespec now;
    time_t passed;
    clock_gettime(CLOCK_MONOTONIC, &now);
    passed = now.tv_sec - reader->taken.tv_sec;
    return passed > IS_EMPTY_FOR
        || (passed == IS_EMPTY_FOR && now.tv_nsec >= reader->taken.tv_nsec);
}

static void take_out(struct virtual_reader *reader)
{
    gt_card_free(&reader->table.card);
    reader->has_card = reader->is_powered = reader->is_refused = 0;
    clock_gettime(CLOCK_MONOTONIC, &reader->taken);
}

/* Opens a table's file, and says what it is. A pipe or a device would wait for bytes, and is as no
 * file: NULL, with `errno` as it was. */
static FILE *open_table(const char *name, struct stat *found)
{
    const int fd = open(name, O_RDONLY | O_NONBLOCK | O_NOCTTY | O_CLOEXEC);
    FILE *file = NULL;
    memset(found, 0, sizeof *found);
    if (fd >= 0 && fstat(fd, found) == 0 && (S_ISREG(found->st_mode) || S_ISDIR(found->st_mode)))
        file = fdopen(fd, "r");
    if (file == NULL) {
        memset(found, 0, sizeof *found);
        if (fd >= 0)
            close(fd);
    }
    return file;
}

/* Takes the card out if its file is another one now, or none, and reads the table of a new file. */
static void look_at_file(struct virtual_reader *reader)
{
    struct stat found;
    FILE *file = open_table(reader->name, &found);
    if ((reader->has_card || reader->is_refused) && !is_same(&found, &reader->seen))
        take_out(reader);
    if (file == NULL)
        return;
    if (!reader->has_card && !reader->is_refused && was_empty(reader)) {
        reader->seen = found;
        reader->has_card = table_read(file, reader->name, &reader->table) == GT_OK;
        reader->is_refused = !reader->has_card;
    }
    fclose(file);
}

/* If there is no file, the slot is empty, and the name is printed, since it may be misspelt. pcscd
 * refuses a missing file, unless its name has a colon: `table:` may be before it. */
RESPONSECODE IFDHCreateChannelByName(DWORD Lun, LPSTR DeviceName)
{
    static const char before[] = "table:";
    struct virtual_reader *reader = reader_of(Lun) == NULL ? find_reader(0, 0) : NULL;
    const char *name = DeviceName;
    if (strncmp(name, before, sizeof before - 1) == 0)
        name += sizeof before - 1;
    if (reader == NULL || strlen(name) >= NAME_ROOM)
        return IFD_COMMUNICATION_ERROR;
    memset(reader, 0, sizeof *reader);
    strcpy(reader->name, name);
    errno = 0;
    look_at_file(reader);
    if (reader->is_refused)
        return IFD_COMMUNICATION_ERROR;
    if (!reader->has_card) {
        const int why = errno;
        text_print(stderr, name);
        fprintf(stderr, ": %s\n", why == 0 ? "not a regular file" : strerror(why));
        if (why != ENOENT && why != 0)
            return IFD_COMMUNICATION_ERROR;
    }
    reader->is_used = 1;
    reader->lun = Lun;
    return IFD_SUCCESS;
}

/* The tables of a card need a name of a file. */
RESPONSECODE IFDHCreateChannel(DWORD Lun, DWORD Channel)
{
    (void)Lun;
    (void)Channel;
    return IFD_COMMUNICATION_ERROR;
}

RESPONSECODE IFDHCloseChannel(DWORD Lun)
{
    struct virtual_reader *reader = reader_of(Lun);
    if (reader == NULL)
        return IFD_NO_SUCH_DEVICE;
    gt_card_free(&reader->table.card);
    memset(reader, 0, sizeof *reader);
    return IFD_SUCCESS;
}

/* The answer to reset, or no bytes if the card has no power. */
static RESPONSECODE copy_atr(const struct virtual_reader *reader, DWORD room, PUCHAR value,
                             PDWORD length)
{
    const DWORD n = reader->is_powered ? (DWORD)reader->table.atr_size : 0;
    if (room < n)
        return IFD_ERROR_INSUFFICIENT_BUFFER;
    memcpy(value, reader->table.atr, n);
    *length = n;
    return IFD_SUCCESS;
}

static RESPONSECODE one_byte(UCHAR byte, PDWORD length, PUCHAR value)
{
    if (*length < 1)
        return IFD_ERROR_INSUFFICIENT_BUFFER;
    *length = 1;
    *value = byte;
    return IFD_SUCCESS;
}

RESPONSECODE IFDHGetCapabilities(DWORD Lun, DWORD Tag, PDWORD Length, PUCHAR Value)
{
    const struct virtual_reader *reader = reader_of(Lun);
    switch (Tag) {
    case TAG_IFD_ATR:
        return reader != NULL ? copy_atr(reader, *Length, Value, Length) : IFD_NO_SUCH_DEVICE;
    case TAG_IFD_SLOTS_NUMBER:
        return one_byte(1, Length, Value);
    case TAG_IFD_SIMULTANEOUS_ACCESS:
        return one_byte(READERS_LIMIT, Length, Value);
    default:
        return IFD_ERROR_TAG;
    }
}

RESPONSECODE IFDHSetCapabilities(DWORD Lun, DWORD Tag, DWORD Length, PUCHAR Value)
{
    (void)Lun;
    (void)Tag;
    (void)Length;
    (void)Value;
    return IFD_NOT_SUPPORTED;
}

/* Whether the card's answer to reset offers a protocol. An invalid answer offers T=0. */
static int is_offered(const struct virtual_reader *reader, DWORD t)
{
    const struct table *table = &reader->table;
    gt_atr says;
    size_t place;
    if (gt_atr_read(table->atr, table->atr_size, &says, &place) != GT_OK)
        return t == 0;
    return t < 2 && memchr(says.protocols, (int)t, says.protocol_count) != NULL;
}

/* There are no parameters to choose. */
RESPONSECODE IFDHSetProtocolParameters(DWORD Lun, DWORD Protocol, UCHAR Flags, UCHAR PTS1,
                                       UCHAR PTS2, UCHAR PTS3)
{
    const struct virtual_reader *reader = reader_of(Lun);
    (void)Flags;
    (void)PTS1;
    (void)PTS2;
    (void)PTS3;
    if (reader == NULL)
        return IFD_NO_SUCH_DEVICE;
    if (Protocol != SCARD_PROTOCOL_T0 && Protocol != SCARD_PROTOCOL_T1)
        return IFD_PROTOCOL_NOT_SUPPORTED;
    return is_offered(reader, Protocol == SCARD_PROTOCOL_T1) ? IFD_SUCCESS
                                                             : IFD_PROTOCOL_NOT_SUPPORTED;
}

RESPONSECODE IFDHPowerICC(DWORD Lun, DWORD Action, PUCHAR Atr, PDWORD AtrLength)
{
    struct virtual_reader *reader = reader_of(Lun);
    if (reader == NULL)
        return IFD_NO_SUCH_DEVICE;
    if (Action != IFD_POWER_UP && Action != IFD_RESET && Action != IFD_POWER_DOWN)
        return IFD_NOT_SUPPORTED;
    if (gt_card_reset(&reader->table.card) != GT_OK)
        return IFD_ERROR_POWER_ACTION;
    reader->is_powered = Action != IFD_POWER_DOWN;
    return copy_atr(reader, MAX_ATR_SIZE, Atr, AtrLength);
}

/* Carries out a TPDU. */
static RESPONSECODE carry_out_tpdu(struct virtual_reader *reader, const UCHAR *sent, size_t n,
                                   UCHAR *answer, PDWORD length)
{
    gt_card *card = &reader->table.card;
    size_t size;
    int32_t code;
    /* no TPDU of T=0 has the Le that clients send after data */
    if (n > 5 && sent[4] > 0 && n == (size_t)6 + sent[4])
        n--;
    code = gt_card_tpdu(card, sent, n, answer, *length, &size);
    while (table_answers(card, code))
        code = gt_card_tpdu(card, NULL, 0, answer, *length, &size);
    if (code != GT_OK)
        return IFD_COMMUNICATION_ERROR;
    *length = (DWORD)size;
    return IFD_SUCCESS;
}

/* The status of a card that can't take the bytes, or has no memory for the response. */
static uint16_t status_of(int32_t code)
{
    switch (code) {
    case GT_INVALID_INS: return 0x6D00;
    case GT_MEMORY: return 0x6581;
    default: return 0x6700;
    }
}

/* Carries out a command. There is always a response; a client may lack the room for it. */
static RESPONSECODE carry_out_apdu(struct virtual_reader *reader, const UCHAR *sent, size_t n,
                                   UCHAR *answer, PDWORD length)
{
    UCHAR response[GT_ANSWER_LIMIT];
    gt_card *card = &reader->table.card;
    size_t size = 2;
    int32_t code = gt_card_apdu(card, sent, n, response, sizeof response, &size);
    while (table_answers(card, code))
        code = gt_card_apdu(card, NULL, 0, response, sizeof response, &size);
    if (code != GT_OK) {
        response[0] = (UCHAR)(status_of(code) >> 8);
        response[1] = (UCHAR)status_of(code);
    }
    if (*length < size)
        return IFD_ERROR_INSUFFICIENT_BUFFER;
    memcpy(answer, response, size);
    *length = (DWORD)size;
    return IFD_SUCCESS;
}

RESPONSECODE IFDHTransmitToICC(DWORD Lun, SCARD_IO_HEADER SendPci, PUCHAR TxBuffer, DWORD TxLength,
                               PUCHAR RxBuffer, PDWORD RxLength, PSCARD_IO_HEADER RecvPci)
{
    struct virtual_reader *reader = reader_of(Lun);
    RESPONSECODE code;
    if (reader != NULL)
        look_at_file(reader);
    if (reader == NULL)
        code = IFD_NO_SUCH_DEVICE;
    else if (!reader->has_card)
        code = IFD_ICC_NOT_PRESENT;
    else if (!is_offered(reader, SendPci.Protocol))
        code = IFD_PROTOCOL_NOT_SUPPORTED;
    else if (!reader->is_powered)
        code = IFD_COMMUNICATION_ERROR;
    else if (SendPci.Protocol == 1 || is_contactless(reader->table.atr, reader->table.atr_size))
        code = carry_out_apdu(reader, TxBuffer, TxLength, RxBuffer, RxLength);
    else
        code = carry_out_tpdu(reader, TxBuffer, TxLength, RxBuffer, RxLength);
    if (code != IFD_SUCCESS)
        *RxLength = 0;
    else if (RecvPci != NULL)
        RecvPci->Protocol = SendPci.Protocol;
    return code;
}

RESPONSECODE IFDHControl(DWORD Lun, DWORD dwControlCode, PUCHAR TxBuffer, DWORD TxLength,
                         PUCHAR RxBuffer, DWORD RxLength, LPDWORD pdwBytesReturned)
{
    (void)Lun;
    (void)dwControlCode;
    (void)TxBuffer;
    (void)TxLength;
    (void)RxBuffer;
    (void)RxLength;
    *pdwBytesReturned = 0;
    return IFD_ERROR_NOT_SUPPORTED;
}

RESPONSECODE IFDHICCPresence(DWORD Lun)
{
    struct virtual_reader *reader = reader_of(Lun);
    if (reader == NULL)
        return IFD_NO_SUCH_DEVICE;
    look_at_file(reader);
    return reader->has_card ? IFD_ICC_PRESENT : IFD_ICC_NOT_PRESENT;
}
