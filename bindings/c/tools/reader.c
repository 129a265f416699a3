#define _POSIX_C_SOURCE 200112L

#include "reader.h"
#include "contactless.h"
#include "program.h"
#include "system.h"
#include "waiting.h"

#include <string.h>

/* how many times it begins a transaction, if other programs reset the card before each */
#define BEGIN_LIMIT 100

/* how many times it asks for either protocol, and the pause between, in milliseconds */
enum { ASK_LIMIT = 10, ASK_PAUSE = 100 };

/* room for the names of as many readers as a pcscd has, and a few words */
#define NAMES_ROOM 2400

#define EITHER (SCARD_PROTOCOL_T0 | SCARD_PROTOCOL_T1)

/* What some of the codes of PC/SC say of a card and its reader. */
static const struct {
    LONG code;
    const char *text;
} TEXTS[] = {
    { SCARD_E_NO_SERVICE, SERVICE " is not running" },
    { SCARD_E_SERVICE_STOPPED, SERVICE " is not running" },
    { SCARD_E_NO_READERS_AVAILABLE, "no reader" },
    { SCARD_E_UNKNOWN_READER, "the reader is gone" },
    { SCARD_E_READER_UNAVAILABLE, "the reader is gone" },
    { SCARD_E_NO_SMARTCARD, "no card in the reader" },
    { SCARD_W_REMOVED_CARD, "the card was removed" },
    { SCARD_W_RESET_CARD, "the card was reset by another program" },
    { SCARD_W_UNPOWERED_CARD, "the card has no power" },
    { SCARD_W_UNRESPONSIVE_CARD, "the card does not answer to reset" },
    { SCARD_E_SHARING_VIOLATION, "another program has exclusive use of the card" },
    { SCARD_E_NOT_TRANSACTED, "the reader could not carry out the command" },
    { SCARD_F_COMM_ERROR, "the reader could not carry out the command" },
    { SCARD_E_INSUFFICIENT_BUFFER, "the reader returns more bytes than any answer has" },
    { SCARD_W_SECURITY_VIOLATION, SERVICE " refuses this user (SCARD_W_SECURITY_VIOLATION)"
                                  REMEDY },
};

/* NULL for success, and a text for each other code of a call without a context. */
static const char *text_of(LONG code)
{
    size_t i;
    if (code == SCARD_S_SUCCESS)
        return NULL;
    for (i = 0; i < sizeof TEXTS / sizeof TEXTS[0]; i++) {
        if (TEXTS[i].code == code)
            return TEXTS[i].text;
    }
    return text_told("PC/SC fault %08lX: %s", (unsigned long)code & 0xFFFFFFFFUL,
                     pcsc_stringify_error(code));
}

/* The names of all readers, one after another, each with a NUL: `size` bytes. */
struct names {
    char *first;
    DWORD size;
};

static LONG get_names(SCARDCONTEXT context, struct names *names)
{
    names->first = NULL;
    names->size = SCARD_AUTOALLOCATE;
    return SCardListReaders(context, NULL, (LPSTR)&names->first, &names->size);
}

static void free_names(SCARDCONTEXT context, struct names *names)
{
    if (names->first != NULL)
        SCardFreeMemory(context, names->first);
    names->first = NULL;
}

/* The name after `before`, or the first if that is NULL; NULL after the last. An empty one ends
 * them. */
static const char *next_name(const struct names *names, const char *before)
{
    const char *end = names->first + names->size;
    const char *name = before == NULL ? names->first : before + strlen(before) + 1;
    if (name >= end || *name == '\0' || memchr(name, '\0', (size_t)(end - name)) == NULL)
        return NULL;
    return name;
}

static bool is_meant(const char *name, const char *wanted)
{
    return wanted == NULL || strstr(name, wanted) != NULL;
}

/* The fault of more than one reader, with their names. */
static const char *tell_many(const struct names *names, const char *wanted)
{
    static char told[NAMES_ROOM];
    const char *name = NULL, *sign = ":";
    size_t n = (size_t)snprintf(told, sizeof told, "more than one %sreader, choose one with -r",
                                wanted == NULL ? "" : "such ");
    while ((name = next_name(names, name)) != NULL && n < sizeof told) {
        if (is_meant(name, wanted)) {
            n += (size_t)snprintf(told + n, sizeof told - n, "%s '%s'", sign, name);
            sign = ",";
        }
    }
    text_calm(told);
    return told;
}

/* Returns the reader that the name means, or NULL and why there is no such reader. */
static const char *find_name(const struct names *names, const char *wanted, const char **why)
{
    const char *name = NULL, *found = NULL;
    size_t count = 0;
    while ((name = next_name(names, name)) != NULL) {
        if (wanted != NULL && strcmp(name, wanted) == 0)
            return name;
        if (is_meant(name, wanted)) {
            found = name;
            count++;
        }
    }
    if (count == 1)
        return found;
    if (count == 0)
        *why = wanted == NULL ? "no reader" : "no such reader";
    else
        *why = tell_many(names, wanted);
    return NULL;
}

static LONG establish(SCARDCONTEXT *context)
{
    return SCardEstablishContext(SCARD_SCOPE_SYSTEM, NULL, NULL, context);
}

const char *reader_list(FILE *out)
{
    SCARDCONTEXT context;
    struct names names;
    const char *name = NULL;
    LONG code = establish(&context);
    if (code != SCARD_S_SUCCESS)
        return text_of(code);
    code = get_names(context, &names);
    while (code == SCARD_S_SUCCESS && (name = next_name(&names, name)) != NULL) {
        text_print(out, name);
        fputc('\n', out);
    }
    free_names(context, &names);
    SCardReleaseContext(context);
    return code == SCARD_E_NO_READERS_AVAILABLE ? NULL : text_of(code);
}

/* Whether pcscd still answers in this context. */
static bool is_answered(const struct reader *reader)
{
    DWORD size = 0;
    const LONG code = SCardListReaders(reader->context, NULL, NULL, &size);
    return code == SCARD_S_SUCCESS || code == SCARD_E_NO_READERS_AVAILABLE;
}

/* The fault of a card that does not use the requested protocol. */
static const char *mismatch_text(const struct reader *reader)
{
    if (reader->wanted == EITHER)
        return "the card talks neither T=0 nor T=1";
    return reader->wanted == SCARD_PROTOCOL_T0 ? "the card does not talk T=0"
                                               : "the card does not talk T=1";
}

/* NULL for success, and a text for each other code of a call in this context. pcsc-lite returns
 * three of them if pcscd has ended. Two of these may mean something else. */
static const char *fault_of(const struct reader *reader, LONG code)
{
    const bool may_be_gone = code == SCARD_F_COMM_ERROR || code == SCARD_W_SECURITY_VIOLATION;
    if (code == SCARD_E_NO_SERVICE || (may_be_gone && !is_answered(reader)))
        return SERVICE " is gone";
    return code == SCARD_E_PROTO_MISMATCH ? mismatch_text(reader) : text_of(code);
}

/* The code of a connection that asked for one of these protocols. If another program resets the
 * card meanwhile, it has no protocol yet. */
static LONG agreed(const struct reader *reader, LONG code, DWORD protocols)
{
    const bool is_other = reader->protocol != SCARD_PROTOCOL_UNDEFINED
        && (reader->protocol & protocols) == 0;
    return code == SCARD_S_SUCCESS && is_other ? SCARD_E_PROTO_MISMATCH : code;
}

/* pcscd resets the card of a program that was killed, and may refuse both protocols meanwhile, as
 * for a card that talks neither. Waits, and returns whether to ask again. */
static bool asks_again(LONG code, DWORD protocols, int times)
{
    if (code != SCARD_E_PROTO_MISMATCH || protocols != EITHER || times >= ASK_LIMIT)
        return false;
    system_pause(ASK_PAUSE);
    return true;
}

static LONG connect_at(struct reader *reader, const char *name, DWORD share, DWORD protocols)
{
    LONG code;
    int times = 0;
    do
        code = SCardConnect(reader->context, name, share, protocols, &reader->card,
                            &reader->protocol);
    while (asks_again(code, protocols, ++times));
    reader->is_connected = code == SCARD_S_SUCCESS;
    return agreed(reader, code, protocols);
}

static LONG reconnect(struct reader *reader, DWORD how)
{
    LONG code;
    int times = 0;
    do
        code = SCardReconnect(reader->card, SCARD_SHARE_SHARED, reader->wanted, how,
                              &reader->protocol);
    while (asks_again(code, reader->wanted, ++times));
    return agreed(reader, code, reader->wanted);
}

/* Resets a card that uses another protocol, so that it uses the requested one. Only a program that
 * has the card for itself may do that: another one would lose its selection. */
static const char *change_protocol(struct reader *reader, const char *name)
{
    LONG code = connect_at(reader, name, SCARD_SHARE_EXCLUSIVE, EITHER);
    if (code == SCARD_E_SHARING_VIOLATION)
        return reader->wanted == SCARD_PROTOCOL_T0 ? "another program talks T=1 with the card"
                                                   : "another program talks T=0 with the card";
    if (code == SCARD_S_SUCCESS)
        code = reconnect(reader, SCARD_RESET_CARD);
    return fault_of(reader, code);
}

static const char *connect_to(struct reader *reader, const char *name)
{
    const LONG code = connect_at(reader, name, SCARD_SHARE_SHARED, reader->wanted);
    if (code == SCARD_E_PROTO_MISMATCH && !reader->is_connected && reader->wanted != EITHER)
        return change_protocol(reader, name);
    return fault_of(reader, code);
}

/* Asks for the protocol in use and the answer to reset. */
static LONG ask_status(struct reader *reader)
{
    BYTE atr[MAX_ATR_SIZE];
    DWORD names = 0, size = sizeof atr;
    const LONG code =
        SCardStatus(reader->card, NULL, &names, NULL, &reader->protocol, atr, &size);
    reader->is_contactless = code == SCARD_S_SUCCESS && is_contactless(atr, size);
    return code;
}

/* Begins a transaction, unless one has begun. A reset while this program connected makes pcscd
 * forget the protocol, and not say so. */
static LONG begin(struct reader *reader)
{
    LONG code = reader->is_held ? SCARD_S_SUCCESS : SCardBeginTransaction(reader->card);
    reader->is_held = code == SCARD_S_SUCCESS;
    if (code == SCARD_S_SUCCESS)
        code = ask_status(reader);
    return code == SCARD_S_SUCCESS && (reader->protocol & reader->wanted) == 0
        ? SCARD_W_RESET_CARD
        : code;
}

/* Begins a transaction. The card may have been reset since this program connected: by one that
 * ended its own transaction, or for one that was killed. Nothing was sent yet, so that is no
 * loss. */
static const char *begin_transaction(struct reader *reader)
{
    LONG code = begin(reader);
    int times;
    for (times = 1; code == SCARD_W_RESET_CARD && times < BEGIN_LIMIT; times++) {
        code = reconnect(reader, SCARD_LEAVE_CARD);
        if (code == SCARD_S_SUCCESS)
            code = begin(reader);
    }
    return fault_of(reader, code);
}

/* Connects and begins a transaction. For each of them another program may first have to end its
 * own. */
static const char *take_card(struct reader *reader, const char *name, long wait)
{
    struct waiting waiting;
    const char *why = waiting_begin(&waiting, name, wait);
    if (why != NULL)
        return why;
    why = connect_to(reader, name);
    if (why == NULL)
        why = begin_transaction(reader);
    waiting_end(&waiting);
    return why;
}

const char *reader_open(struct reader *reader, const char *name, int protocol, long wait)
{
    struct names names;
    const char *why = NULL, *found;
    LONG code;
    memset(reader, 0, sizeof *reader);
    reader->wanted = protocol < 0 ? EITHER : protocol == 0 ? SCARD_PROTOCOL_T0 : SCARD_PROTOCOL_T1;
    code = establish(&reader->context);
    if (code != SCARD_S_SUCCESS)
        return text_of(code);
    reader->has_context = true;
    code = get_names(reader->context, &names);
    if (code != SCARD_S_SUCCESS)
        return fault_of(reader, code);
    found = find_name(&names, name, &why);
    if (found != NULL)
        why = take_card(reader, found, wait);
    free_names(reader->context, &names);
    return why;
}

int reader_protocol(const struct reader *reader)
{
    return reader->protocol == SCARD_PROTOCOL_T1 ? 1 : 0;
}

bool reader_takes_apdus(const struct reader *reader)
{
    return reader->protocol == SCARD_PROTOCOL_T1 || reader->is_contactless;
}

const char *reader_transmit(struct reader *reader, const uint8_t *sent, size_t n,
                            uint8_t answer[READER_ROOM], size_t *length)
{
    const SCARD_IO_REQUEST *header =
        reader->protocol == SCARD_PROTOCOL_T1 ? SCARD_PCI_T1 : SCARD_PCI_T0;
    DWORD got = READER_ROOM;
    const LONG code = SCardTransmit(reader->card, header, sent, (DWORD)n, NULL, answer, &got);
    *length = code == SCARD_S_SUCCESS && got <= READER_ROOM ? got : 0;
    /* the protocol that was agreed is gone */
    return code == SCARD_E_PROTO_MISMATCH ? text_of(SCARD_W_RESET_CARD) : fault_of(reader, code);
}

const char *reader_close(struct reader *reader)
{
    LONG code = SCARD_S_SUCCESS, last = SCARD_S_SUCCESS;
    const char *why;
    if (reader->is_held)
        code = SCardEndTransaction(reader->card, SCARD_RESET_CARD);
    if (reader->is_connected)
        last = SCardDisconnect(reader->card, SCARD_LEAVE_CARD);
    why = fault_of(reader, code != SCARD_S_SUCCESS ? code : last);
    if (reader->has_context)
        last = SCardReleaseContext(reader->context);
    if (why == NULL)
        why = fault_of(reader, last);
    memset(reader, 0, sizeof *reader);
    return why;
}
