/* The virtual reader for tests of batches. When a card is removed, it writes the card's contents to
 * the file KEPT, a line for each card. So a test counts the contents of cards, and does not rely on
 * a program's output. pcscd looks for a card every 5 ms, and 50 ms without a card are enough.
 *
 * The file NAME.pull, beside the card's file NAME, has a byte for each command that the card still
 * answers. The next one is not carried out, and the card is pulled. NAME.lost is the same, but the
 * last of its commands is carried out, and its answer is lost. */
#define _POSIX_C_SOURCE 200809L

#include <galliumtoad.h>

#include <time.h>

static void keep_and_free(gt_card *card);
static int clock_of_test(clockid_t clock, struct timespec *now);

/* These rename functions of virtual_reader.c, and one that it calls. */
#define gt_card_free(card) keep_and_free(card)
#define clock_gettime(clock, now) clock_of_test(clock, now)
#define IFDHGetCapabilities most_capabilities
#define IFDHTransmitToICC answer
#include "virtual_reader.c"
#undef gt_card_free
#undef clock_gettime
#undef IFDHGetCapabilities
#undef IFDHTransmitToICC

#include <stdlib.h>
#include <unistd.h>

/* how many times as fast as time is the reader's clock */
#define SPEED 20

static int clock_of_test(clockid_t clock, struct timespec *now)
{
    const int code = clock_gettime(clock, now);
    const long long passed = (now->tv_sec * 1000000000LL + now->tv_nsec) * SPEED;
    now->tv_sec = (time_t)(passed / 1000000000LL);
    now->tv_nsec = (long)(passed % 1000000000LL);
    return code;
}

/* Adds the application's objects to the line, as ` TAG=VALUE`. */
static void print_objects(FILE *line, gt_card *card, size_t app)
{
    static uint8_t value[GT_VALUE_LIMIT];
    uint32_t tag;
    int32_t is_locked;
    size_t at, i, n;
    for (at = 0; gt_card_entry_at(card, app, at, &tag, &is_locked, value, sizeof value, &n) == 0;
         at++) {
        fprintf(line, " %X=", (unsigned)tag);
        for (i = 0; i < n; i++)
            fprintf(line, "%02X", value[i]);
    }
}

static void keep_and_free(gt_card *card)
{
    uint8_t aid[GT_AID_LIMIT];
    size_t app, n;
    FILE *file = gt_card_app_at(card, 0, aid, &n) == GT_OK ? fopen(getenv("KEPT"), "a") : NULL;
    if (file != NULL) {
        fputs("card", file);
        for (app = 0; gt_card_app_at(card, app, aid, &n) == GT_OK; app++)
            print_objects(file, card, app);
        fputs("\n", file);
        if (fclose(file) != 0)
            abort();
    }
    gt_card_free(card);
}

static RESPONSECODE wait_a_little(DWORD lun, int timeout)
{
    const struct timespec while_waiting = { 0, 5000000 };
    (void)lun;
    (void)timeout;
    nanosleep(&while_waiting, NULL);
    return IFD_SUCCESS;
}

RESPONSECODE IFDHGetCapabilities(DWORD Lun, DWORD Tag, PDWORD Length, PUCHAR Value)
{
    RESPONSECODE (*const waits)(DWORD, int) = wait_a_little;
    if (Tag != TAG_IFD_POLLING_THREAD_WITH_TIMEOUT)
        return most_capabilities(Lun, Tag, Length, Value);
    if (*Length < sizeof waits)
        return IFD_ERROR_INSUFFICIENT_BUFFER;
    memcpy(Value, &waits, sizeof waits);
    *Length = sizeof waits;
    return IFD_SUCCESS;
}

/* Takes a byte off the file with this ending. Returns how many there were, or -1 without a file. */
static long left(const char *name, const char *ending)
{
    char file[NAME_ROOM + 8];
    struct stat found;
    snprintf(file, sizeof file, "%s%s", name, ending);
    if (stat(file, &found) != 0)
        return -1;
    if (found.st_size > 0 && truncate(file, found.st_size - 1) != 0)
        abort();
    return (long)found.st_size;
}

RESPONSECODE IFDHTransmitToICC(DWORD Lun, SCARD_IO_HEADER SendPci, PUCHAR TxBuffer, DWORD TxLength,
                               PUCHAR RxBuffer, PDWORD RxLength, PSCARD_IO_HEADER RecvPci)
{
    const struct virtual_reader *reader = reader_of(Lun);
    RESPONSECODE code;
    if (reader == NULL)
        return IFD_NO_SUCH_DEVICE;
    if (left(reader->name, ".pull") == 0)
        unlink(reader->name);
    code = answer(Lun, SendPci, TxBuffer, TxLength, RxBuffer, RxLength, RecvPci);
    if (left(reader->name, ".lost") == 1) {
        unlink(reader->name);
        *RxLength = 0;
        return IFD_COMMUNICATION_ERROR;
    }
    return code;
}
