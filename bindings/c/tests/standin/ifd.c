/* Tests the functions of the virtual reader, called as by pcscd. */
#define _POSIX_C_SOURCE 200809L

#include "check.h"
#include "table.h"

#include <galliumtoad.h>
#include <ifdhandler.h>

#include <fcntl.h>
#include <stdlib.h>
#include <sys/stat.h>
#include <time.h>
#include <unistd.h>

/* Readers, by the numbers that pcscd gives them. Each has one slot. */
#define ONE 0x00000
#define OTHER 0x10000
#define NONE 0x20000

static const char NAMES[] = "app A0000000031010\nobject 5F20 4A4F45\nlocked 50 56495341\n";
static const char OTHERS[] = "atr 3B6500002063CB6800\n# another card\napp A0000000031010\n"
                             "object 5F20 414E4E\n";

/* The name of the file of a reader's table. */
static char *file_of(DWORD lun)
{
    static char name[32];
    snprintf(name, sizeof name, "%lu.table", (unsigned long)lun >> 16);
    return name;
}

static void write_file(const char *name, const char *text)
{
    FILE *file = fopen(name, "w");
    if (file == NULL || fputs(text, file) < 0 || fclose(file) != 0)
        exit(1);
}

static void write_table(DWORD lun, const char *text)
{
    write_file(file_of(lun), text);
}

/* Creates a reader with this table. */
static RESPONSECODE create(DWORD lun, const char *text)
{
    write_table(lun, text);
    return IFDHCreateChannelByName(lun, file_of(lun));
}

static UCHAR received[300];
static DWORD length;

/* Sends a TPDU or a command at a protocol, with `room` bytes for the answer, and returns the
 * reader's code. */
static RESPONSECODE send_at(DWORD lun, DWORD protocol, const char *tpdu, DWORD n, DWORD room)
{
    UCHAR sent[600];
    SCARD_IO_HEADER to = { protocol, sizeof to }, from = { 77, sizeof from };
    RESPONSECODE code;
    memcpy(sent, tpdu, n);
    length = room;
    code = IFDHTransmitToICC(lun, to, sent, n, received, &length, &from);
    CHECK(from.Protocol, code == IFD_SUCCESS ? protocol : 77);
    return code;
}

/* A TPDU at T=0, or a command at T=1, is carried out with this answer. */
#define CHECK_AT(lun, protocol, tpdu, answer) do { \
        CHECK(send_at(lun, protocol, tpdu, sizeof tpdu - 1, 258), IFD_SUCCESS); \
        CHECK(length, sizeof answer - 1); \
        CHECK_BYTES(received, answer, sizeof answer - 1); \
    } while (0)

#define CHECK_ANSWER(lun, tpdu, answer) CHECK_AT(lun, 0, tpdu, answer)
#define CHECK_RESPONSE(lun, apdu, response) CHECK_AT(lun, 1, apdu, response)

/* It is not carried out: the call returns `fault`, and no bytes. */
#define CHECK_FAULT(lun, protocol, tpdu, room, fault) do { \
        CHECK(send_at(lun, protocol, tpdu, sizeof tpdu - 1, room), fault); \
        CHECK(length, 0); \
    } while (0)

#define SELECT "\x00\xA4\x04\x00\x07\xA0\x00\x00\x00\x03\x10\x10"
#define GET "\x00\xCA\x5F\x20\x00"
#define GET_NAME "\x00\xCA\x5F\x20\x06"
#define SELECTED "\x6F\x09\x84\x07\xA0\x00\x00\x00\x03\x10\x10\x90\x00"
#define NAME "\x5F\x20\x03JOE\x90\x00"

static void check_power(DWORD lun, DWORD action, const char *atr, size_t n)
{
    UCHAR found[MAX_ATR_SIZE];
    DWORD size = MAX_ATR_SIZE;
    CHECK(IFDHPowerICC(lun, action, found, &size), IFD_SUCCESS);
    CHECK(size, n);
    CHECK_BYTES(found, atr, n);
    size = MAX_ATR_SIZE;
    CHECK(IFDHGetCapabilities(lun, TAG_IFD_ATR, &size, found), IFD_SUCCESS);
    CHECK(size, n);
    CHECK_BYTES(found, atr, n);
}

/* Starts a reader with this table, and powers its card up. */
static void starts(const char *table, const char *atr, size_t n)
{
    CHECK(create(NONE, table), IFD_SUCCESS);
    check_power(NONE, IFD_POWER_UP, atr, n);
}

/* What the reader answers when pcscd sets each protocol. There is no T=2. */
static void check_protocols(DWORD lun, RESPONSECODE t0, RESPONSECODE t1)
{
    CHECK(IFDHSetProtocolParameters(lun, SCARD_PROTOCOL_T0, 0, 0, 0, 0), t0);
    CHECK(IFDHSetProtocolParameters(lun, SCARD_PROTOCOL_T1, 0, 0, 0, 0), t1);
    CHECK(IFDHSetProtocolParameters(lun, 4, 0, 0, 0, 0), IFD_PROTOCOL_NOT_SUPPORTED);
}

/* A number without a reader. */
static void no_reader(DWORD lun)
{
    UCHAR bytes[MAX_ATR_SIZE];
    DWORD size = sizeof bytes;
    CHECK(IFDHICCPresence(lun), IFD_NO_SUCH_DEVICE);
    CHECK(IFDHCloseChannel(lun), IFD_NO_SUCH_DEVICE);
    CHECK(IFDHPowerICC(lun, IFD_POWER_UP, bytes, &size), IFD_NO_SUCH_DEVICE);
    CHECK(IFDHGetCapabilities(lun, TAG_IFD_ATR, &size, bytes), IFD_NO_SUCH_DEVICE);
    CHECK(IFDHSetProtocolParameters(lun, SCARD_PROTOCOL_T0, 0, 0, 0, 0), IFD_NO_SUCH_DEVICE);
    CHECK_FAULT(lun, 0, GET, 258, IFD_NO_SUCH_DEVICE);
}

/* Each reader has its own card with its own answer to reset. */
static void two_cards(void)
{
    CHECK(create(ONE, NAMES), IFD_SUCCESS);
    CHECK(create(OTHER, OTHERS), IFD_SUCCESS);
    CHECK(IFDHCreateChannelByName(ONE, file_of(OTHER)), IFD_COMMUNICATION_ERROR);
    CHECK(IFDHICCPresence(ONE), IFD_ICC_PRESENT);
    CHECK(IFDHICCPresence(OTHER), IFD_ICC_PRESENT);
    no_reader(NONE);
    check_power(ONE, IFD_POWER_UP, "\x3B\x00", 2);
    check_power(OTHER, IFD_POWER_UP, "\x3B\x65\x00\x00\x20\x63\xCB\x68\x00", 9);
    CHECK_ANSWER(ONE, SELECT, "\x61\x0B");
    CHECK_ANSWER(OTHER, GET, "\x69\x85");
    CHECK_ANSWER(ONE, "\x00\xC0\x00\x00\x0B", SELECTED);
    CHECK_ANSWER(OTHER, SELECT, "\x61\x0B");
    CHECK_ANSWER(ONE, GET_NAME, "\x5F\x20\x03JOE\x90\x00");
    CHECK_ANSWER(OTHER, GET_NAME, "\x5F\x20\x03" "ANN\x90\x00");
    CHECK_ANSWER(ONE, "\x00\xDA\x5F\x20\x03LEE", "\x90\x00");
    CHECK_ANSWER(ONE, GET_NAME, "\x5F\x20\x03LEE\x90\x00");
    CHECK_ANSWER(OTHER, GET_NAME, "\x5F\x20\x03" "ANN\x90\x00");
    CHECK_ANSWER(ONE, "\x00\xDA\x5F\x20\x03JOE", "\x90\x00");
}

/* Bytes that can't be carried out are a fault. Some of these reset the card. */
static void faults(void)
{
    CHECK_FAULT(ONE, 1, GET_NAME, 258, IFD_PROTOCOL_NOT_SUPPORTED);
    CHECK_FAULT(ONE, 0, "\x00\xCA\x5F", 258, IFD_COMMUNICATION_ERROR);
    CHECK_FAULT(ONE, 0, "\x00\xDA\x5F\x20\x03JO", 258, IFD_COMMUNICATION_ERROR);
    CHECK_FAULT(ONE, 0, GET_NAME, 1, IFD_COMMUNICATION_ERROR);
    CHECK_ANSWER(ONE, GET_NAME, "\x5F\x20\x03JOE\x90\x00");
    CHECK(send_at(ONE, 0, GET_NAME, 5, 8), IFD_SUCCESS);
    CHECK(length, 8);
    /* too little room for the answer changes nothing at the card */
    CHECK_FAULT(ONE, 0, GET_NAME, 7, IFD_COMMUNICATION_ERROR);
    CHECK_ANSWER(ONE, GET_NAME, "\x5F\x20\x03JOE\x90\x00");
    CHECK_FAULT(ONE, 0, "\x00\xCA\x5F\x20\x06JOEJOE", 258, IFD_COMMUNICATION_ERROR);
    CHECK_ANSWER(ONE, GET_NAME, "\x69\x85");
    CHECK_FAULT(ONE, 0, "\x00\xA4\x04\x00\x05", 258, IFD_COMMUNICATION_ERROR);
    CHECK_FAULT(ONE, 0, "", 258, IFD_COMMUNICATION_ERROR);
}

/* Clients also send the Le after the data of a command, which a TPDU does not have. The reader
 * drops one byte, whatever it is. Two bytes are a fault, and so is one byte without data. */
static void le_behind_data(void)
{
    CHECK_ANSWER(ONE, SELECT "\x00", "\x61\x0B");
    CHECK_ANSWER(ONE, SELECT "\x0B", "\x61\x0B");
    CHECK_ANSWER(ONE, "\x00\xC0\x00\x00\x0B", SELECTED);
    CHECK_ANSWER(ONE, "\x00\xDA\x5F\x20\x01" "A\x00", "\x90\x00");
    CHECK_ANSWER(ONE, "\x00\xCA\x5F\x20\x04", "\x5F\x20\x01" "A\x90\x00");
    CHECK_FAULT(ONE, 0, SELECT "\x00\x00", 258, IFD_COMMUNICATION_ERROR);
    CHECK_FAULT(ONE, 0, "\x00\xCA\x5F\x20\x00\x00", 258, IFD_COMMUNICATION_ERROR);
    CHECK_ANSWER(ONE, "\x00\xCA\x5F\x20\x04", "\x5F\x20\x01" "A\x90\x00");
    CHECK_ANSWER(ONE, "\x00\xDA\x5F\x20\x03JOE\xFF", "\x90\x00");
}

/* Power and resets: stored values stay, and the selection ends. */
static void power(void)
{
    UCHAR atr[MAX_ATR_SIZE];
    DWORD size = sizeof atr;
    CHECK_ANSWER(ONE, SELECT, "\x61\x0B");
    CHECK_ANSWER(ONE, "\x00\xDA\x5F\x20\x03LEE", "\x90\x00");
    check_power(ONE, IFD_RESET, "\x3B\x00", 2);
    CHECK_ANSWER(ONE, GET_NAME, "\x69\x85");
    check_power(ONE, IFD_POWER_DOWN, "", 0);
    CHECK_FAULT(ONE, 0, SELECT, 258, IFD_COMMUNICATION_ERROR);
    check_power(ONE, IFD_POWER_UP, "\x3B\x00", 2);
    CHECK_ANSWER(ONE, SELECT, "\x61\x0B");
    CHECK_ANSWER(ONE, GET_NAME, "\x5F\x20\x03LEE\x90\x00");
    CHECK_ANSWER(OTHER, GET_NAME, "\x5F\x20\x03" "ANN\x90\x00");
    CHECK(IFDHPowerICC(ONE, 503, atr, &size), IFD_NOT_SUPPORTED);
    CHECK_ANSWER(ONE, GET_NAME, "\x5F\x20\x03LEE\x90\x00");
}

/* The capabilities that pcscd asks for. */
static void capabilities(void)
{
    UCHAR bytes[MAX_ATR_SIZE];
    DWORD size = 1;
    CHECK(IFDHGetCapabilities(ONE, TAG_IFD_ATR, &size, bytes), IFD_ERROR_INSUFFICIENT_BUFFER);
    CHECK(IFDHGetCapabilities(ONE, TAG_IFD_SLOTS_NUMBER, &size, bytes), IFD_SUCCESS);
    CHECK(size, 1);
    CHECK(bytes[0], 1);
    CHECK(IFDHGetCapabilities(ONE, TAG_IFD_SIMULTANEOUS_ACCESS, &size, bytes), IFD_SUCCESS);
    CHECK(bytes[0], PCSCLITE_MAX_READERS_CONTEXTS);
    CHECK(IFDHGetCapabilities(ONE, TAG_IFD_THREAD_SAFE, &size, bytes), IFD_ERROR_TAG);
    size = 0;
    CHECK(IFDHGetCapabilities(ONE, TAG_IFD_SLOTS_NUMBER, &size, bytes),
          IFD_ERROR_INSUFFICIENT_BUFFER);
    CHECK(IFDHSetCapabilities(ONE, TAG_IFD_ATR, 1, bytes), IFD_NOT_SUPPORTED);
    check_protocols(ONE, IFD_SUCCESS, IFD_PROTOCOL_NOT_SUPPORTED);
    size = 5;
    CHECK(IFDHControl(ONE, 1, bytes, 1, bytes, 1, &size), IFD_ERROR_NOT_SUPPORTED);
    CHECK(size, 0);
    CHECK(IFDHCreateChannel(NONE, 0), IFD_COMMUNICATION_ERROR);
}

/* A table may have an answer to reset of 2 to 33 bytes. Invalid tables are refused. */
static void tables(void)
{
    char name[] = "there.table", text[128];
    int i;
    CHECK(IFDHCreateChannelByName(NONE, name), IFD_SUCCESS);
    CHECK(IFDHICCPresence(NONE), IFD_ICC_NOT_PRESENT);
    CHECK(IFDHCloseChannel(NONE), IFD_SUCCESS);
    CHECK(create(NONE, "atr 3B\n"), IFD_COMMUNICATION_ERROR);
    CHECK(create(NONE, "atr 3B0\n"), IFD_COMMUNICATION_ERROR);
    CHECK(create(NONE, "atr 3B 00\n"), IFD_COMMUNICATION_ERROR);
    CHECK(create(NONE, "atr\n"), IFD_COMMUNICATION_ERROR);
    CHECK(create(NONE, "object 50 41\n"), IFD_COMMUNICATION_ERROR);
    CHECK(create(NONE, "app A000000003 41\n"), IFD_COMMUNICATION_ERROR);
    CHECK(create(NONE, "app A000000003\nobject 50\n"), IFD_COMMUNICATION_ERROR);
    CHECK(create(NONE, "app A000000003\nobject 50 41 41\n"), IFD_COMMUNICATION_ERROR);
    CHECK(create(NONE, "app A000000003\nobject 50 4\n"), IFD_COMMUNICATION_ERROR);
    CHECK(create(NONE, "app A000000003\nobject 5F2001 41\n"), IFD_COMMUNICATION_ERROR);
    CHECK(create(NONE, "select A000000003\n"), IFD_COMMUNICATION_ERROR);
    no_reader(NONE);
    strcpy(text, "atr ");
    for (i = 0; i < MAX_ATR_SIZE; i++)
        strcat(text, "3F");
    starts(text, "??????????????????????????????" "???", MAX_ATR_SIZE);
    CHECK(IFDHCloseChannel(NONE), IFD_SUCCESS);
    CHECK(create(NONE, strcat(text, "3F")), IFD_COMMUNICATION_ERROR);
    starts("\r\n  \n app A000000003\r\nlocked 50 -\natr 3b01", "\x3B\x01", 2);
    CHECK(IFDHCloseChannel(NONE), IFD_SUCCESS);
}

/* A fault of a table prints the file, and the line or the reason, on standard error: try_pcsc has
 * these lines, which are the last. */
static void told_faults(void)
{
    char name[] = "there.table", folder[] = ".", under[] = "2.table/table", device[] = "/dev/null";
    CHECK(create(NONE, "app A000000003\nobject 50\n"), IFD_COMMUNICATION_ERROR);
    CHECK(IFDHCreateChannelByName(NONE, name), IFD_SUCCESS);
    write_file(name, "app A0\n");
    CHECK(IFDHICCPresence(NONE), IFD_ICC_NOT_PRESENT);
    CHECK(IFDHICCPresence(NONE), IFD_ICC_NOT_PRESENT);
    CHECK(IFDHCloseChannel(NONE), IFD_SUCCESS);
    CHECK(IFDHCreateChannelByName(NONE, device), IFD_SUCCESS);
    CHECK(IFDHCloseChannel(NONE), IFD_SUCCESS);
    CHECK(IFDHCreateChannelByName(NONE, folder), IFD_COMMUNICATION_ERROR);
    CHECK(IFDHCreateChannelByName(NONE, under), IFD_COMMUNICATION_ERROR);
}

/* A card that offers T=1 alone takes whole commands, and answers each of them. */
static void whole_commands(void)
{
    char extended[600] = "\x00\xDA\x5F\x20\x00\x02\x00";
    starts("atr 3B800181\napp A0000000031010\nobject 5F20 4A4F45\n", "\x3B\x80\x01\x81", 4);
    check_protocols(NONE, IFD_PROTOCOL_NOT_SUPPORTED, IFD_SUCCESS);
    CHECK_FAULT(NONE, 0, SELECT, 258, IFD_PROTOCOL_NOT_SUPPORTED);
    CHECK_FAULT(NONE, 4, SELECT, 258, IFD_PROTOCOL_NOT_SUPPORTED);
    CHECK_RESPONSE(NONE, SELECT "\x00", SELECTED);
    CHECK_RESPONSE(NONE, SELECT, "\x61\x0B");
    CHECK_RESPONSE(NONE, GET, NAME);
    CHECK_RESPONSE(NONE, "\x00\xCA\x5F\x20\x02", "\x5F\x20\x61\x04");
    /* bytes that are not a command, and refused commands: the response stays pending */
    CHECK_RESPONSE(NONE, "", "\x67\x00");
    CHECK_RESPONSE(NONE, "\x00\x60\x00\x00\x00", "\x6D\x00");
    CHECK(send_at(NONE, 1, extended, 7 + 512, 258), IFD_SUCCESS);
    CHECK_BYTES(received, "\x67\x00", 2);
    CHECK_RESPONSE(NONE, "\x00\xC0\x00\x00\x00", "\x03JOE\x90\x00");
    /* a client with less room than the response needs */
    CHECK(send_at(NONE, 1, GET, 5, 8), IFD_SUCCESS);
    CHECK(length, 8);
    CHECK_FAULT(NONE, 1, GET, 7, IFD_ERROR_INSUFFICIENT_BUFFER);
    check_power(NONE, IFD_POWER_DOWN, "", 0);
    CHECK_FAULT(NONE, 1, SELECT, 258, IFD_COMMUNICATION_ERROR);
    CHECK(IFDHCloseChannel(NONE), IFD_SUCCESS);
}

/* A card that offers both takes TPDUs at T=0. A card without contacts takes whole commands at
 * both. */
static void both_protocols(void)
{
    starts("atr 3B9011800100\napp A0000000031010\n", "\x3B\x90\x11\x80\x01\x00", 6);
    check_protocols(NONE, IFD_SUCCESS, IFD_SUCCESS);
    CHECK_ANSWER(NONE, SELECT "\x00", "\x61\x0B");
    CHECK_RESPONSE(NONE, SELECT "\x00", SELECTED);
    CHECK(IFDHCloseChannel(NONE), IFD_SUCCESS);
    starts("atr 3B80800101\napp A0000000031010\n", "\x3B\x80\x80\x01\x01", 5);
    check_protocols(NONE, IFD_SUCCESS, IFD_SUCCESS);
    CHECK_RESPONSE(NONE, SELECT "\x00", SELECTED);
    CHECK_ANSWER(NONE, SELECT "\x00", SELECTED);
    CHECK(IFDHCloseChannel(NONE), IFD_SUCCESS);
}

/* The application of own_card.c. */
static table_application *keeps_a_byte;

/* A card of an application of one's own, by TPDUs and by commands. */
static void own_application(void)
{
    table_own = keeps_a_byte;
    CHECK(create(NONE, "app A0000000031010\n"), IFD_COMMUNICATION_ERROR);
    starts("atr 3B9011800100\n", "\x3B\x90\x11\x80\x01\x00", 6);
    CHECK_ANSWER(NONE, "\x80\xDA\x00\x50\x02\x41\x42", "\x90\x00");
    CHECK_ANSWER(NONE, "\x80\xCA\x00\x50\x02", "\x6C\x01");
    CHECK_ANSWER(NONE, "\x80\xCA\x00\x50\x01", "\x41\x90\x00");
    CHECK_RESPONSE(NONE, "\x80\xCA\x00\x50\x02", "\x41\x90\x00");
    CHECK_RESPONSE(NONE, "\x80\xDA\x00\x50\x01\x43\x00", "\x90\x00");
    CHECK_RESPONSE(NONE, "\x80\xCA\x00\x50\x00", "\x43\x90\x00");
    CHECK_RESPONSE(NONE, "\x80\xCA\x00\x50\x01\x43", "\x67\x00");
    CHECK_FAULT(NONE, 0, "\x80\xDA\x00\x50\x02", 258, IFD_COMMUNICATION_ERROR);
    CHECK_ANSWER(NONE, "\x80\xCA\x00\x50\x01", "\x43\x90\x00");
    CHECK(IFDHCloseChannel(NONE), IFD_SUCCESS);
    table_own = NULL;
}

static void pause_for(long milliseconds)
{
    struct timespec pause;
    pause.tv_sec = milliseconds / 1000;
    pause.tv_nsec = milliseconds % 1000 * 1000000;
    nanosleep(&pause, NULL);
}

/* The milliseconds of a clock that nobody sets. */
static long now(void)
{
    struct timespec found;
    clock_gettime(CLOCK_MONOTONIC, &found);
    return (long)found.tv_sec * 1000 + found.tv_nsec / 1000000;
}

/* The slot is empty for a second, and then has the card of the file that is there now. A busy
 * machine may be late. */
static void check_change(DWORD lun, const char *name)
{
    UCHAR atr[MAX_ATR_SIZE];
    DWORD size = sizeof atr;
    const long began = now();
    RESPONSECODE found;
    CHECK(IFDHICCPresence(lun), IFD_ICC_NOT_PRESENT);
    CHECK(IFDHPowerICC(lun, IFD_POWER_UP, atr, &size), IFD_ERROR_POWER_ACTION);
    pause_for(900);
    found = IFDHICCPresence(lun);
    CHECK(found == IFD_ICC_NOT_PRESENT || now() >= began + 1000, 1);
    pause_for(200);
    CHECK(IFDHICCPresence(lun), IFD_ICC_PRESENT);
    CHECK_FAULT(lun, 0, SELECT, 258, IFD_COMMUNICATION_ERROR);
    size = sizeof atr;
    CHECK(IFDHPowerICC(lun, IFD_POWER_UP, atr, &size), IFD_SUCCESS);
    CHECK_ANSWER(lun, GET_NAME, "\x69\x85");
    CHECK_ANSWER(lun, SELECT, "\x61\x0B");
    CHECK(send_at(lun, 0, GET_NAME, 5, 258), IFD_SUCCESS);
    CHECK_BYTES(received + 3, name, 3);
}

/* The card is removed with the file, and inserted with another: one that is there again at once,
 * that replaces the first, or that is the same with another content. */
static void comes_and_goes(void)
{
    starts(NAMES, "\x3B\x00", 2);
    CHECK_ANSWER(NONE, SELECT, "\x61\x0B");
    CHECK(IFDHICCPresence(NONE), IFD_ICC_PRESENT);
    remove(file_of(NONE));
    CHECK(IFDHICCPresence(NONE), IFD_ICC_NOT_PRESENT);
    write_table(NONE, OTHERS);
    check_change(NONE, "ANN");
    check_power(NONE, IFD_RESET, "\x3B\x65\x00\x00\x20\x63\xCB\x68\x00", 9);
    /* with the same size, in the middle of a talk */
    CHECK_ANSWER(NONE, SELECT, "\x61\x0B");
    write_table(NONE, OTHERS);
    CHECK_FAULT(NONE, 0, GET_NAME, 258, IFD_ICC_NOT_PRESENT);
    check_change(NONE, "ANN");
    write_file("other.table", NAMES);
    CHECK(rename("other.table", file_of(NONE)), 0);
    check_change(NONE, "JOE");
    remove(file_of(NONE));
    CHECK_FAULT(NONE, 0, GET_NAME, 258, IFD_ICC_NOT_PRESENT);
    CHECK_FAULT(NONE, 0, GET_NAME, 258, IFD_ICC_NOT_PRESENT);
    pause_for(1100);
    /* an invalid table is reported once, and there is no card until the file changes */
    write_table(NONE, "app A0\n");
    CHECK(IFDHICCPresence(NONE), IFD_ICC_NOT_PRESENT);
    CHECK(IFDHICCPresence(NONE), IFD_ICC_NOT_PRESENT);
    write_table(NONE, OTHERS);
    check_change(NONE, "ANN");
    remove(file_of(NONE));
    CHECK(IFDHCloseChannel(NONE), IFD_SUCCESS);
}

/* Writes a table, and sets the time of its last change. */
static void write_at(const char *name, const char *text, time_t seconds, long nanoseconds)
{
    struct timespec times[2];
    write_file(name, text);
    times[0].tv_sec = times[1].tv_sec = seconds;
    times[0].tv_nsec = times[1].tv_nsec = nanoseconds;
    CHECK(utimensat(AT_FDCWD, name, times, 0), 0);
}

/* What is another table: it has another size, another time by one nanosecond or one second, or is
 * another file. With the same of all of these it is the same. */
static void other_tables(void)
{
    static const struct {
        const char *text;
        time_t seconds;
        long nanoseconds;
        int is_renamed;
    } tables[] = {
        { "app A0000000031010\n", 1000, 0, 0 },
        { "app A0000000031010\n\n", 1000, 0, 0 },
        { "app A0000000031010\n", 1000, 1, 0 },
        { "app A0000000031010\n", 1001, 0, 0 },
        { "app A0000000031010\n", 1000, 0, 1 },
    };
    const char *name = "2.table", *other = "other.table";
    size_t i;
    for (i = 0; i < sizeof tables / sizeof tables[0]; i++) {
        write_at(name, tables[0].text, 1000, 0);
        CHECK(IFDHCreateChannelByName(NONE, file_of(NONE)), IFD_SUCCESS);
        write_at(tables[i].is_renamed ? other : name, tables[i].text, tables[i].seconds,
                 tables[i].nanoseconds);
        if (tables[i].is_renamed)
            CHECK(rename(other, name), 0);
        CHECK(IFDHICCPresence(NONE), i == 0 ? IFD_ICC_PRESENT : IFD_ICC_NOT_PRESENT);
        CHECK(IFDHCloseChannel(NONE), IFD_SUCCESS);
    }
    remove(name);
}

/* A slot gets its card at once when there is a table. A pipe in its place would wait for a writer:
 * it is as no file, at the start and later. */
static void slots(void)
{
    static const char *const FILES[] = { "-t", "ptp" }; /* no file, tables and pipes */
    char with_colon[] = "table:2.table";
    const char *file;
    size_t i;
    alarm(60);
    for (i = 0; i < sizeof FILES / sizeof FILES[0]; i++) {
        for (file = FILES[i]; *file != '\0'; file++) {
            remove(file_of(NONE));
            if (*file == 't')
                write_table(NONE, NAMES);
            if (*file == 'p')
                CHECK(mkfifo(file_of(NONE), 0600), 0);
            if (file == FILES[i])
                CHECK(IFDHCreateChannelByName(NONE, with_colon), IFD_SUCCESS);
            CHECK(IFDHICCPresence(NONE), *file == 't' ? IFD_ICC_PRESENT : IFD_ICC_NOT_PRESENT);
            if (*file != 't')
                CHECK_FAULT(NONE, 0, GET_NAME, 258, IFD_ICC_NOT_PRESENT);
        }
        CHECK(IFDHCloseChannel(NONE), IFD_SUCCESS);
    }
    remove(file_of(NONE));
    alarm(0);
}

/* Answers to reset that offer neither protocol, and an invalid one, which counts as T=0. */
static void other_protocols(void)
{
    starts("atr 3B800484\napp A0000000031010\n", "\x3B\x80\x04\x84", 4);
    check_protocols(NONE, IFD_PROTOCOL_NOT_SUPPORTED, IFD_PROTOCOL_NOT_SUPPORTED);
    CHECK_FAULT(NONE, 0, SELECT, 258, IFD_PROTOCOL_NOT_SUPPORTED);
    CHECK_FAULT(NONE, 1, SELECT, 258, IFD_PROTOCOL_NOT_SUPPORTED);
    CHECK_FAULT(NONE, 4, SELECT, 258, IFD_PROTOCOL_NOT_SUPPORTED);
    CHECK(IFDHCloseChannel(NONE), IFD_SUCCESS);
    CHECK(create(NONE, "atr 3B01\napp A0000000031010\n"), IFD_SUCCESS);
    check_protocols(NONE, IFD_SUCCESS, IFD_PROTOCOL_NOT_SUPPORTED);
    CHECK(IFDHCloseChannel(NONE), IFD_SUCCESS);
}

/* Names of 1,023 and 1,024 bytes. */
static void long_names(void)
{
    char name[1025] = "";
    int i;
    for (i = 0; i < 508; i++)
        strcat(name, "./");
    write_table(NONE, NAMES);
    strcat(name, file_of(NONE));
    CHECK(IFDHCreateChannelByName(NONE, name), IFD_SUCCESS);
    CHECK(IFDHCloseChannel(NONE), IFD_SUCCESS);
    strcpy(name + 1016, "/");
    strcat(name, file_of(NONE));
    CHECK(strlen(name), 1024);
    CHECK(IFDHCreateChannelByName(NONE, name), IFD_COMMUNICATION_ERROR);
    no_reader(NONE);
}

/* As many readers as a pcscd has, and one more. A number that is free again gets a new card. */
static void all_readers(void)
{
    DWORD lun;
    CHECK(IFDHCloseChannel(ONE), IFD_SUCCESS);
    CHECK(IFDHCloseChannel(OTHER), IFD_SUCCESS);
    no_reader(ONE);
    for (lun = 0; lun < PCSCLITE_MAX_READERS_CONTEXTS; lun++)
        CHECK(create(lun << 16, NAMES), IFD_SUCCESS);
    CHECK(create(lun << 16, NAMES), IFD_COMMUNICATION_ERROR);
    CHECK_FAULT(ONE, 0, SELECT, 258, IFD_COMMUNICATION_ERROR);
    check_power(ONE, IFD_POWER_UP, "\x3B\x00", 2);
    CHECK_ANSWER(ONE, SELECT, "\x61\x0B");
    CHECK_ANSWER(ONE, GET_NAME, "\x5F\x20\x03JOE\x90\x00");
    while (lun-- > 0) {
        CHECK(IFDHCloseChannel(lun << 16), IFD_SUCCESS);
        remove(file_of(lun << 16));
    }
}

int main(void)
{
    keeps_a_byte = table_own;
    table_own = NULL;
    no_reader(ONE);
    two_cards();
    faults();
    le_behind_data();
    power();
    capabilities();
    tables();
    whole_commands();
    both_protocols();
    own_application();
    other_tables();
    slots();
    comes_and_goes();
    other_protocols();
    long_names();
    all_readers();
    told_faults();
    return check_result("virtual_reader");
}
