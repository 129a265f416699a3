/* A stand-in for libpcsclite: a reader with a card of data objects, in the same process. The
 * environment sets it up:
 *
 * - STANDIN_TABLE: the file of the card's table; else that of the examples.
 * - STANDIN_READERS: the readers' names, with strokes between them.
 * - STANDIN_FAULT: the call that fails, and how (`words_of`).
 * - STANDIN_LOG: the file of the log. It gets each call, and at the end what was not released.
 * - STANDIN_OFFERS: the digits of the card's protocols; else 0.
 * - STANDIN_RUNS: the digit of the protocol that the card already talks.
 * - STANDIN_OTHERS: another program is connected.
 * - STANDIN_APDUS: the reader takes commands at T=0, too. */
#define _POSIX_C_SOURCE 200112L

#include "pcsc.h"
#include "table.h"
#include "text.h"

#include <stdlib.h>
#include <string.h>
#include <time.h>

#define THE_CONTEXT 0x1001
#define THE_CARD 0x2002
#define THE_READER "Galliumtoad card 00 00"

/* The most bytes of a list of names, and of a faulty reader's answer. */
#define NAMES_ROOM 4096
#define LONG_ANSWER 300

const SCARD_IO_REQUEST g_rgSCardT0Pci = { SCARD_PROTOCOL_T0, sizeof(SCARD_IO_REQUEST) };
const SCARD_IO_REQUEST g_rgSCardT1Pci = { SCARD_PROTOCOL_T1, sizeof(SCARD_IO_REQUEST) };
const SCARD_IO_REQUEST g_rgSCardRawPci = { 4, sizeof(SCARD_IO_REQUEST) };

static gt_card card;
static uint8_t answer_to_reset[TABLE_ATR_LIMIT];
static size_t atr_length;
static DWORD runs = SCARD_PROTOCOL_UNDEFINED;   /* the card's protocol, for pcscd */
static int contexts, is_connected, is_held, is_reset, is_exclusive, has_forgotten, names_held;
static volatile int is_held_by_another;

static FILE *log_file(void)
{
    static FILE *file;
    const char *name = getenv("STANDIN_LOG");
    if (file == NULL && name != NULL)
        file = fopen(name, "a");
    return file;
}

/* Writes a line of the log: the words, then the bytes. */
static void note(const char *words, const uint8_t *bytes, size_t n)
{
    FILE *file = log_file();
    if (file != NULL)
        text_print_bytes(file, words, bytes, n);
}

/* The words for the protocols that a call asks for: empty for both. */
static const char *words_for(DWORD protocols)
{
    if (protocols == (SCARD_PROTOCOL_T0 | SCARD_PROTOCOL_T1))
        return "";
    return protocols == SCARD_PROTOCOL_T0 ? ", at T=0" : protocols == SCARD_PROTOCOL_T1
        ? ", at T=1" : ", not at a protocol";
}

static void note_reader(const char *name, DWORD share, DWORD protocols)
{
    char words[256];
    const char *asked = words_for(protocols), *mode = ", not as wanted";
    if (share == SCARD_SHARE_SHARED || share == SCARD_SHARE_EXCLUSIVE)
        mode = share == SCARD_SHARE_SHARED ? "" : ", exclusive";
    snprintf(words, sizeof words, "connect%s%s%s to %s", mode, asked, *mode || *asked ? "," : "",
             name);
    note(words, NULL, 0);
}

static void note_what_is_left(void)
{
    if (is_held)
        note("left: a transaction", NULL, 0);
    if (is_connected)
        note("left: a connection", NULL, 0);
    if (names_held)
        note("left: names", NULL, 0);
    if (contexts)
        note("left: a context", NULL, 0);
    gt_card_free(&card);
}

/* The fault of this call in STANDIN_FAULT, or NULL. That is a list of `CALL:N=WHAT`, with spaces
 * between them, for the N-th call of that name, from 1. WHAT is the code to return, or a word. */
static const char *words_of(const char *call, unsigned long time)
{
    static char word[16];
    const char *at = getenv("STANDIN_FAULT");
    const size_t n = strlen(call);
    while (at != NULL && *at != '\0') {
        char *end = NULL;
        if (strncmp(at, call, n) == 0 && at[n] == ':' && strtoul(at + n + 1, &end, 10) == time
            && *end == '=') {
            const size_t size = strcspn(end + 1, " ");
            if (size < sizeof word) {
                memcpy(word, end + 1, size);
                word[size] = '\0';
                return word;
            }
        }
        at += strcspn(at, " ");
        at += strspn(at, " ");
    }
    return NULL;
}

/* Waits N tenths of a second: `holdN` for another program, which the reader's state shows, and
 * `slowN` for the card. */
static void wait_by(const char *word)
{
    struct timespec tenth = { 0, 100000000 };
    unsigned long i;
    if (word == NULL || (strncmp(word, "hold", 4) != 0 && strncmp(word, "slow", 4) != 0))
        return;
    is_held_by_another = word[0] == 'h';
    for (i = strtoul(word + 4, NULL, 10); i > 0; i--)
        nanosleep(&tenth, NULL);
    is_held_by_another = 0;
}

/* The code that a call has to return, or success. */
static LONG fault_of(const char *call, unsigned long time)
{
    const char *word = words_of(call, time);
    return word != NULL && strlen(word) == 8 ? (LONG)strtoul(word, NULL, 16) : SCARD_S_SUCCESS;
}

const char *pcsc_stringify_error(const LONG code)
{
    return code == SCARD_E_NO_MEMORY ? "Not enough memory." : "Another fault.";
}

LONG SCardEstablishContext(DWORD scope, LPCVOID reserved, LPCVOID more, LPSCARDCONTEXT context)
{
    static unsigned long time;
    const LONG fault = fault_of("establish", ++time);
    (void)reserved;
    (void)more;
    if (time == 1)
        atexit(note_what_is_left);
    note(scope == SCARD_SCOPE_SYSTEM ? "establish" : "establish, of another scope", NULL, 0);
    if (fault != SCARD_S_SUCCESS)
        return fault;
    contexts++;
    *context = THE_CONTEXT;
    return SCARD_S_SUCCESS;
}

LONG SCardReleaseContext(SCARDCONTEXT context)
{
    static unsigned long time;
    note("release", NULL, 0);
    if (context != THE_CONTEXT || !contexts)
        return SCARD_E_INVALID_HANDLE;
    contexts--;
    return fault_of("release", ++time);
}

/* Writes the readers' names, each with a NUL after it, and one more NUL. */
static DWORD names_of_readers(char *names)
{
    const char *set = getenv("STANDIN_READERS");
    size_t n, i;
    if (set == NULL)
        set = THE_READER;
    n = strlen(set);
    if (n > NAMES_ROOM - 2)
        n = NAMES_ROOM - 2;
    for (i = 0; i < n; i++)
        names[i] = set[i] == '/' ? '\0' : set[i];
    names[n] = names[n + 1] = '\0';
    return n == 0 ? 0 : (DWORD)(n + 2);
}

LONG SCardListReaders(SCARDCONTEXT context, LPCSTR groups, LPSTR readers, LPDWORD size)
{
    static unsigned long time;
    static char names[NAMES_ROOM];
    const DWORD n = names_of_readers(names);
    const LONG fault = fault_of("list", ++time);
    (void)groups;
    note("list", NULL, 0);
    if (context != THE_CONTEXT || !contexts)
        return SCARD_E_INVALID_HANDLE;
    if (fault != SCARD_S_SUCCESS || n == 0)
        return fault != SCARD_S_SUCCESS ? fault : SCARD_E_NO_READERS_AVAILABLE;
    if (*size == SCARD_AUTOALLOCATE) {
        char *room = malloc(n);
        if (room == NULL)
            return SCARD_E_NO_MEMORY;
        memcpy(room, names, n);
        *(char **)(void *)readers = room;
        names_held++;
    } else if (readers != NULL) {
        if (*size < n)
            return SCARD_E_INSUFFICIENT_BUFFER;
        memcpy(readers, names, n);
    }
    *size = n;
    return SCARD_S_SUCCESS;
}

LONG SCardFreeMemory(SCARDCONTEXT context, LPCVOID memory)
{
    if (context != THE_CONTEXT)
        return SCARD_E_INVALID_HANDLE;
    names_held--;
    free((void *)memory);
    return SCARD_S_SUCCESS;
}

/* Creates the card once. Stored values stay until the process ends. */
static LONG make_card(void)
{
    const char *name = getenv("STANDIN_TABLE");
    struct table table = TABLE_INIT;
    FILE *file;
    int32_t code;
    if (card.live)
        return SCARD_S_SUCCESS;
    file = fopen(name != NULL ? name : STANDIN_TABLE, "r");
    if (file == NULL)
        return SCARD_E_NO_SMARTCARD;
    code = table_read(file, NULL, &table);
    fclose(file);
    card = table.card;
    atr_length = table.atr_size;
    memcpy(answer_to_reset, table.atr, atr_length);
    return code == GT_OK ? SCARD_S_SUCCESS : SCARD_W_UNRESPONSIVE_CARD;
}

/* The protocols whose digits are in a word of the environment. */
static DWORD protocols_of(const char *name, const char *otherwise)
{
    const char *digits = getenv(name);
    if (digits == NULL)
        digits = otherwise;
    return (strchr(digits, '0') != NULL ? SCARD_PROTOCOL_T0 : 0)
        | (strchr(digits, '1') != NULL ? SCARD_PROTOCOL_T1 : 0);
}

/* Chooses one of the protocols that are asked for, T=1 before T=0, as pcscd does. With the word
 * `block` it is always T=1, and with `unset` no protocol. */
static LONG choose_protocol(DWORD asked, const char *word, LPDWORD protocol)
{
    const DWORD both = asked & protocols_of("STANDIN_OFFERS", "0");
    if (runs == SCARD_PROTOCOL_UNDEFINED)
        runs = both & SCARD_PROTOCOL_T1 ? SCARD_PROTOCOL_T1 : both;
    *protocol = word != NULL && strcmp(word, "block") == 0 ? SCARD_PROTOCOL_T1 : runs;
    if (word != NULL && strcmp(word, "unset") == 0)
        *protocol = SCARD_PROTOCOL_UNDEFINED;
    return (runs & asked) != 0 ? SCARD_S_SUCCESS : SCARD_E_PROTO_MISMATCH;
}

LONG SCardConnect(SCARDCONTEXT context, LPCSTR reader, DWORD share, DWORD protocols,
                  LPSCARDHANDLE handle, LPDWORD protocol)
{
    static unsigned long time;
    LONG fault = fault_of("connect", ++time);
    const char *word = words_of("connect", time);
    note_reader(reader, share, protocols);
    wait_by(word);
    if (context != THE_CONTEXT || is_connected)
        return SCARD_E_INVALID_HANDLE;
    if (share == SCARD_SHARE_EXCLUSIVE && getenv("STANDIN_OTHERS") != NULL)
        return SCARD_E_SHARING_VIOLATION;
    if (time == 1)
        runs = protocols_of("STANDIN_RUNS", "");
    if (fault == SCARD_S_SUCCESS)
        fault = make_card();
    if (fault == SCARD_S_SUCCESS)
        fault = choose_protocol(protocols, word, protocol);
    if (fault != SCARD_S_SUCCESS)
        return fault;
    gt_card_reset(&card);
    is_connected = 1;
    is_exclusive = share == SCARD_SHARE_EXCLUSIVE;
    is_reset = 0;
    *handle = THE_CARD;
    return SCARD_S_SUCCESS;
}

static void note_reconnect(DWORD share, DWORD protocols, DWORD how)
{
    char words[64];
    const char *kind = ", not as wanted";
    if (share == SCARD_SHARE_SHARED && how == SCARD_LEAVE_CARD)
        kind = "";
    else if (share == SCARD_SHARE_SHARED && how == SCARD_RESET_CARD && is_exclusive)
        kind = ", reset";
    snprintf(words, sizeof words, "reconnect%s%s", kind, words_for(protocols));
    note(words, NULL, 0);
}

LONG SCardReconnect(SCARDHANDLE handle, DWORD share, DWORD protocols, DWORD initialization,
                    LPDWORD protocol)
{
    static unsigned long time;
    const LONG fault = fault_of("reconnect", ++time);
    note_reconnect(share, protocols, initialization);
    if (handle != THE_CARD || !is_connected)
        return SCARD_E_INVALID_HANDLE;
    if (fault != SCARD_S_SUCCESS)
        return fault;
    if (initialization == SCARD_RESET_CARD) {
        gt_card_reset(&card);
        runs = SCARD_PROTOCOL_UNDEFINED;
    }
    is_exclusive = share == SCARD_SHARE_EXCLUSIVE;
    is_reset = has_forgotten = 0;
    return choose_protocol(protocols, words_of("reconnect", time), protocol);
}

/* A NULL pointer asks for nothing. `forget`: the protocol is not set, and the card gets nothing
 * until it is. `other`: the card now talks the other protocol. */
LONG SCardStatus(SCARDHANDLE handle, LPSTR names, LPDWORD size, LPDWORD state, LPDWORD protocol,
                 LPBYTE atr, LPDWORD atr_size)
{
    static unsigned long time;
    const LONG fault = fault_of("status", ++time);
    const char *word = words_of("status", time);
    if (handle != THE_CARD || !is_connected)
        return SCARD_E_INVALID_HANDLE;
    if (names != NULL || state != NULL || atr == NULL || *atr_size < MAX_ATR_SIZE)
        note("status, not as wanted", NULL, 0);
    if ((names != NULL && *size < sizeof THE_READER) || (atr != NULL && *atr_size < atr_length))
        return SCARD_E_INSUFFICIENT_BUFFER;
    if (names != NULL)
        memcpy(names, THE_READER, sizeof THE_READER);
    if (state != NULL)
        *state = SCARD_PRESENT | SCARD_POWERED | SCARD_NEGOTIABLE;
    if (atr != NULL)
        memcpy(atr, answer_to_reset, atr_length);
    *size = sizeof THE_READER;
    *atr_size = (DWORD)atr_length;
    has_forgotten = word != NULL && strcmp(word, "forget") == 0;
    if (has_forgotten)
        runs = SCARD_PROTOCOL_UNDEFINED;
    if (word != NULL && strcmp(word, "other") == 0)
        runs ^= SCARD_PROTOCOL_T0 | SCARD_PROTOCOL_T1;
    if (protocol != NULL)
        *protocol = runs;
    return fault;
}

LONG SCardGetStatusChange(SCARDCONTEXT context, DWORD timeout, SCARD_READERSTATE *states,
                          DWORD count)
{
    char words[256];
    const int is_as_wanted = timeout == 0 && count == 1;
    snprintf(words, sizeof words, "state%s of %s", is_as_wanted ? "" : ", not as wanted,",
             states->szReader);
    note(words, NULL, 0);
    if (context != THE_CONTEXT || !contexts)
        return SCARD_E_INVALID_HANDLE;
    states->dwEventState = is_held_by_another || is_connected ? SCARD_STATE_INUSE : 0;
    return SCARD_S_SUCCESS;
}

LONG SCardDisconnect(SCARDHANDLE handle, DWORD disposition)
{
    static unsigned long time;
    note(disposition == SCARD_LEAVE_CARD ? "disconnect" : "disconnect, and not leave", NULL, 0);
    if (handle != THE_CARD || !is_connected)
        return SCARD_E_INVALID_HANDLE;
    is_connected = is_exclusive = 0;
    return fault_of("disconnect", ++time);
}

LONG SCardBeginTransaction(SCARDHANDLE handle)
{
    static unsigned long time;
    const LONG fault = fault_of("begin", ++time);
    note("begin", NULL, 0);
    wait_by(words_of("begin", time));
    if (handle != THE_CARD || !is_connected || is_held)
        return SCARD_E_INVALID_HANDLE;
    if (fault == SCARD_W_RESET_CARD)
        is_reset = 1;
    is_held = fault == SCARD_S_SUCCESS && !is_reset;
    return is_reset ? SCARD_W_RESET_CARD : fault;
}

LONG SCardEndTransaction(SCARDHANDLE handle, DWORD disposition)
{
    static unsigned long time;
    note(disposition == SCARD_RESET_CARD ? "end, reset" : "end, no reset", NULL, 0);
    if (handle != THE_CARD || !is_held)
        return SCARD_E_INVALID_HANDLE;
    is_held = 0;
    gt_card_reset(&card);
    return fault_of("end", ++time);
}

/* Changes an answer of `n` bytes as a faulty reader does. `answer` has room for LONG_ANSWER. */
static size_t spoil(const char *word, uint8_t *answer, size_t n)
{
    const unsigned long status = strtoul(word, NULL, 16);
    const size_t count = strtoul(word + strcspn(word, "0123456789"), NULL, 10);
    if (strncmp(word, "left", 4) == 0) /* the first bytes alone */
        return count;
    if (strlen(word) == 4 && status > 0xFFF) { /* another status */
        answer[n - 2] = (uint8_t)(status >> 8);
        answer[n - 1] = (uint8_t)status;
        return n;
    }
    if (strcmp(word, "more") == 0) { /* one more byte of data, in front */
        memmove(answer + 1, answer, n);
        return n + 1;
    }
    if (strncmp(word, "drop", 4) == 0) { /* without the first bytes of data */
        memmove(answer, answer + count, n - count);
        return n - count;
    }
    if (strcmp(word, "tail") == 0) { /* one more byte of data, at the end */
        memmove(answer + n - 1, answer + n - 2, 2);
        answer[n - 2] = 0x00;
        return n + 1;
    }
    if (strncmp(word, "flip", 4) == 0) /* another byte in this place */
        answer[count] ^= 1;
    if (strcmp(word, "long") == 0) {
        memset(answer, 0x90, LONG_ANSWER);
        answer[LONG_ANSWER - 1] = 0x00;
        return LONG_ANSWER;
    }
    return n;
}

/* Whether the reader takes whole commands. */
static int takes_apdus(void)
{
    return runs == SCARD_PROTOCOL_T1 || getenv("STANDIN_APDUS") != NULL;
}

/* Carries out a TPDU, or a command if the reader takes those. */
static LONG carry_out(LPCBYTE sent, DWORD n, uint8_t answer[LONG_ANSWER], size_t *size)
{
    int32_t code;
    if (!takes_apdus())
        code = gt_card_tpdu(&card, sent, n, answer, LONG_ANSWER, size);
    else
        code = gt_card_apdu(&card, sent, n, answer, LONG_ANSWER, size);
    return code == GT_OK ? SCARD_S_SUCCESS : SCARD_E_NOT_TRANSACTED;
}

/* With the word `againN` the reader carries it out N more times, as after damaged answers. */
LONG SCardTransmit(SCARDHANDLE handle, const SCARD_IO_REQUEST *protocol, LPCBYTE sent, DWORD n,
                   SCARD_IO_REQUEST *answered, LPBYTE received, LPDWORD length)
{
    static unsigned long time;
    uint8_t answer[LONG_ANSWER];
    size_t size = 0;
    LONG fault = fault_of("transmit", ++time);
    const char *word = words_of("transmit", time);
    unsigned long times = 1;
    (void)answered;
    note("> ", sent, n);
    wait_by(word);
    if (handle != THE_CARD || !is_connected)
        return SCARD_E_INVALID_HANDLE;
    if (!is_held)
        note("no transaction", NULL, 0);
    if (has_forgotten || protocol->dwProtocol != runs)
        return SCARD_E_PROTO_MISMATCH;
    if (word != NULL && strncmp(word, "again", 5) == 0)
        times += strtoul(word + 5, NULL, 10);
    for (; times > 0 && fault == SCARD_S_SUCCESS; times--)
        fault = carry_out(sent, n, answer, &size);
    if (fault != SCARD_S_SUCCESS)
        return fault;
    if (word != NULL)
        size = spoil(word, answer, size);
    note("< ", answer, size);
    if (*length < size)
        return SCARD_E_INSUFFICIENT_BUFFER;
    memcpy(received, answer, size);
    *length = (DWORD)size;
    return SCARD_S_SUCCESS;
}
