/* libgt_serial_reader.so: readers for pcscd, each with a card at a serial line. pcscd loads it by
 * an entry in reader.conf.d; docs/READER.md shows one.
 *
 * pcscd makes no two calls for one reader at once, and calls for two readers at any time. So a
 * reader is one value, and its number is its place. */
#include "serial_reader.h"

/* what pcscd looks up; all else is hidden */
#pragma GCC visibility push(default)
#include <ifdhandler.h>

/* pcscd's log, if pcscd has loaded this library */
__attribute__((weak, format(printf, 2, 3))) void log_msg(const int priority, const char *format,
                                                         ...);
#pragma GCC visibility pop

#include <stdio.h>
#include <string.h>

/* as many readers as a pcscd has, each with one slot: the upper half of its number counts them */
enum { READERS_LIMIT = PCSCLITE_MAX_READERS_CONTEXTS, READER_BITS = 16 };

/* the class of pcscd's messages for errors */
enum { LOG_ERROR = 2 };

/* Requests of PC/SC, part 10: for a list of features, whose number is fixed, and for a list of
 * properties, whose number the first list holds. The tags of that feature and of a property: the
 * most data of a command. */
enum { GET_FEATURES = 0x42000000 + 3400, GET_PROPERTIES = 0x42000000 + 3401 };
enum { HAS_PROPERTIES = 0x12, MOST_DATA = 0x0A, LONG_DATA = 65536 };

static struct place {
    bool is_used;
    struct serial_reader reader;
} places[READERS_LIMIT];

/* Logs a fault, with the tty it is about. */
static void tell(const struct serial_reader *reader, const char *fault)
{
    if (log_msg != NULL)
        log_msg(LOG_ERROR, "gt_serial_reader: %s: %s", reader->settings.tty, fault);
    else
        fprintf(stderr, "gt_serial_reader: %s: %s\n", reader->settings.tty, fault);
}

/* The reader's place, used or not, or NULL: there is no such place. */
static struct place *place_of(DWORD lun)
{
    const DWORD number = lun >> READER_BITS;
    return number < READERS_LIMIT && lun == number << READER_BITS ? &places[number] : NULL;
}

/* The reader with this number, or NULL. */
static struct serial_reader *reader_of(DWORD lun)
{
    struct place *place = place_of(lun);
    return place != NULL && place->is_used ? &place->reader : NULL;
}

/* A tty may be missing, as an adapter that is plugged in later. */
RESPONSECODE IFDHCreateChannelByName(DWORD Lun, LPSTR DeviceName)
{
    struct place *place = place_of(Lun);
    const char *fault;
    if (place == NULL || place->is_used)
        return IFD_COMMUNICATION_ERROR;
    fault = serial_reader_init(&place->reader, DeviceName);
    place->is_used = fault == NULL;
    if (fault != NULL)
        tell(&place->reader, fault);
    return fault == NULL ? IFD_SUCCESS : IFD_COMMUNICATION_ERROR;
}

/* The settings need a name. */
RESPONSECODE IFDHCreateChannel(DWORD Lun, DWORD Channel)
{
    (void)Lun;
    (void)Channel;
    return IFD_COMMUNICATION_ERROR;
}

RESPONSECODE IFDHCloseChannel(DWORD Lun)
{
    struct serial_reader *reader = reader_of(Lun);
    if (reader == NULL)
        return IFD_NO_SUCH_DEVICE;
    serial_reader_close(reader);
    place_of(Lun)->is_used = false;
    return IFD_SUCCESS;
}

/* The answer to reset, or no bytes if the card has no power. */
static RESPONSECODE copy_atr(const struct serial_reader *reader, DWORD room, PUCHAR value,
                             PDWORD length)
{
    const DWORD n = reader->is_powered ? (DWORD)reader->answer.n : 0;
    if (room < n)
        return IFD_ERROR_INSUFFICIENT_BUFFER;
    memcpy(value, reader->answer.bytes, n);
    *length = n;
    return IFD_SUCCESS;
}

static RESPONSECODE one_byte(UCHAR byte, PDWORD length, PUCHAR value)
{
    if (*length < 1)
        return IFD_ERROR_INSUFFICIENT_BUFFER;
    *length = 1;
    *value = byte;
    return IFD_SUCCESS;
}

RESPONSECODE IFDHGetCapabilities(DWORD Lun, DWORD Tag, PDWORD Length, PUCHAR Value)
{
    const struct serial_reader *reader = reader_of(Lun);
    switch (Tag) {
    case TAG_IFD_ATR:
        return reader != NULL ? copy_atr(reader, *Length, Value, Length) : IFD_NO_SUCH_DEVICE;
    case TAG_IFD_SLOTS_NUMBER:
        return one_byte(1, Length, Value);
    case TAG_IFD_SIMULTANEOUS_ACCESS:
        return one_byte(READERS_LIMIT, Length, Value);
    case TAG_IFD_THREAD_SAFE:
        return one_byte(1, Length, Value);
    default:
        return IFD_ERROR_TAG;
    }
}

RESPONSECODE IFDHSetCapabilities(DWORD Lun, DWORD Tag, DWORD Length, PUCHAR Value)
{
    (void)Lun;
    (void)Tag;
    (void)Length;
    (void)Value;
    return IFD_NOT_SUPPORTED;
}

/* The card's answer chooses PPS1 and what follows it, if PPS1 is wanted. */
RESPONSECODE IFDHSetProtocolParameters(DWORD Lun, DWORD Protocol, UCHAR Flags, UCHAR PTS1,
                                       UCHAR PTS2, UCHAR PTS3)
{
    struct serial_reader *reader = reader_of(Lun);
    const char *fault;
    (void)PTS1;
    (void)PTS2;
    (void)PTS3;
    if (reader == NULL)
        return IFD_NO_SUCH_DEVICE;
    if (Protocol != SCARD_PROTOCOL_T0 && Protocol != SCARD_PROTOCOL_T1)
        return IFD_PROTOCOL_NOT_SUPPORTED;
    fault = serial_reader_begin(reader, Protocol == SCARD_PROTOCOL_T1,
                                (Flags & IFD_NEGOTIATE_PTS1) != 0);
    if (fault != NULL)
        tell(reader, fault);
    return fault == NULL ? IFD_SUCCESS : IFD_ERROR_PTS_FAILURE;
}

RESPONSECODE IFDHPowerICC(DWORD Lun, DWORD Action, PUCHAR Atr, PDWORD AtrLength)
{
    struct serial_reader *reader = reader_of(Lun);
    const char *fault = NULL;
    *AtrLength = 0;
    if (reader == NULL)
        return IFD_NO_SUCH_DEVICE;
    if (Action != IFD_POWER_UP && Action != IFD_RESET && Action != IFD_POWER_DOWN)
        return IFD_NOT_SUPPORTED;
    if (Action == IFD_POWER_DOWN)
        serial_reader_power_down(reader);
    else
        fault = serial_reader_power_up(reader);
    if (fault != NULL) {
        tell(reader, fault);
        return IFD_ERROR_POWER_ACTION;
    }
    return copy_atr(reader, MAX_ATR_SIZE, Atr, AtrLength);
}

/* The code of a command that failed: what has become of the card. */
static RESPONSECODE code_of(struct serial_reader *reader)
{
    const char *fault;
    const enum serial_reader_state state = serial_reader_look(reader, &fault);
    if (fault != NULL)
        tell(reader, fault);
    switch (state) {
    case SERIAL_READER_REMOVED: return IFD_NO_SUCH_DEVICE;
    case SERIAL_READER_EMPTY: return IFD_ICC_NOT_PRESENT;
    default: return IFD_COMMUNICATION_ERROR;
    }
}

RESPONSECODE IFDHTransmitToICC(DWORD Lun, SCARD_IO_HEADER SendPci, PUCHAR TxBuffer,
                               DWORD TxLength, PUCHAR RxBuffer, PDWORD RxLength,
                               PSCARD_IO_HEADER RecvPci)
{
    struct serial_reader *reader = reader_of(Lun);
    const size_t room = *RxLength;
    const char *fault;
    size_t size = 0;
    *RxLength = 0;
    if (reader == NULL)
        return IFD_NO_SUCH_DEVICE;
    if (SendPci.Protocol > 1)
        return IFD_PROTOCOL_NOT_SUPPORTED;
    fault = serial_reader_begin(reader, (int)SendPci.Protocol, false);
    if (fault == NULL)
        fault = serial_reader_transmit(reader, TxBuffer, TxLength, RxBuffer, room, &size);
    *RxLength = (DWORD)size;
    if (RecvPci != NULL)
        RecvPci->Protocol = SendPci.Protocol;
    if (fault == NULL)
        return IFD_SUCCESS;
    tell(reader, fault);
    return fault == SERIAL_READER_ROOM ? IFD_ERROR_INSUFFICIENT_BUFFER : code_of(reader);
}

/* Puts a list of one number: its tag, its size and its bytes. */
static RESPONSECODE put_number(UCHAR tag, const UCHAR bytes[4], DWORD room, PUCHAR list,
                               LPDWORD size)
{
    if (room < 6)
        return IFD_ERROR_INSUFFICIENT_BUFFER;
    list[0] = tag;
    list[1] = 4;
    memcpy(list + 2, bytes, 4);
    *size = 6;
    return IFD_SUCCESS;
}

/* The only feature is the list of properties, and the only property the most data of a command: at
 * T=0 those of a short one. Requests begin with their highest byte, properties end with it. */
RESPONSECODE IFDHControl(DWORD Lun, DWORD ControlCode, PUCHAR TxBuffer, DWORD TxLength,
                         PUCHAR RxBuffer, DWORD RxLength, LPDWORD BytesReturned)
{
    const struct serial_reader *reader = reader_of(Lun);
    static const UCHAR REQUEST[] = { GET_PROPERTIES >> 24, GET_PROPERTIES >> 16 & 0xFF,
                                     GET_PROPERTIES >> 8 & 0xFF, GET_PROPERTIES & 0xFF };
    static const UCHAR EXTENDED[] = { 0, 0, LONG_DATA >> 16, 0 }, SHORT_ALONE[4] = { 0 };
    bool is_short;
    (void)TxBuffer;
    (void)TxLength;
    *BytesReturned = 0;
    if (reader == NULL)
        return IFD_NO_SUCH_DEVICE;
    switch (ControlCode) {
    case GET_FEATURES:
        return put_number(HAS_PROPERTIES, REQUEST, RxLength, RxBuffer, BytesReturned);
    case GET_PROPERTIES:
        is_short = reader->has_begun && reader->protocol == 0;
        return put_number(MOST_DATA, is_short ? SHORT_ALONE : EXTENDED, RxLength, RxBuffer,
                          BytesReturned);
    default:
        return IFD_ERROR_NOT_SUPPORTED;
    }
}

/* A tty that was there and is gone is a reader that was removed, until it is back. One that was
 * never there shows an empty slot: for any other code pcscd drops a reader that it has just added.
 * The log has the reason once. */
RESPONSECODE IFDHICCPresence(DWORD Lun)
{
    struct serial_reader *reader = reader_of(Lun);
    enum serial_reader_state state;
    const char *fault;
    if (reader == NULL)
        return IFD_NO_SUCH_DEVICE;
    state = serial_reader_look(reader, &fault);
    if (fault != NULL)
        tell(reader, fault);
    if (state == SERIAL_READER_REMOVED)
        return IFD_NO_SUCH_DEVICE;
    return serial_reader_is_lost(reader) ? IFD_ICC_NOT_PRESENT : IFD_ICC_PRESENT;
}
