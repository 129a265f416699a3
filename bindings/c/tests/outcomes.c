/* Tests what is known of an operation if the terminal's end at T=1 gives up: beside a card of one's
 * own that counts, over a line that loses each block from some exchange on. IFSC is 4, so that each
 * command takes two blocks. */
#include "galliumtoad.h"
#include "check.h"

/* S(IFS request), two blocks of the command, R for the rest of 256 bytes, two of GET RESPONSE */
enum { EXCHANGES = 6, IFSC = 4, SIZE = 300 };

static const uint8_t DIRECTIONS[32] = { 0 };
static const uint8_t COUNT[] = { 0x80, 0x10, 0x00, 0x00, 0x00 };

static gt_card card;
static gt_t1 end;
static gt_terminal terminal;
static int count, arrive;

/* The card takes a block, and answers it. Its application counts. Returns the answer's length. */
static size_t answer_of(const uint8_t *block, size_t n, uint8_t answer[GT_BLOCK_LIMIT]) {
    static const uint8_t DATA[SIZE] = { 0 };
    size_t taken, size = 0;
    int32_t code;
    CHECK(gt_card_t1_receive_bytes(&card, block, n, &taken), GT_SENDS);
    while ((code = gt_card_t1_send_bytes(&card, answer, GT_BLOCK_LIMIT, &size)) == GT_COMMAND) {
        count++;
        CHECK(gt_card_respond(&card, DATA, sizeof DATA, 0x9000), GT_OK);
    }
    CHECK(code, GT_OK);
    return size;
}

/* Carries a command to the card. Returns GT_DONE, or GT_FAILED. */
static int32_t carry(const uint8_t *apdu, size_t n) {
    uint8_t block[GT_BLOCK_LIMIT], answer[GT_BLOCK_LIMIT], waits;
    size_t size, taken;
    int32_t code;
    CHECK(gt_t1_begin(&end, apdu, n), GT_OK);
    while ((code = gt_t1_send_bytes(&end, block, sizeof block, &size, &waits)) == GT_OK) {
        if (arrive-- > 0)
            CHECK(gt_t1_receive_bytes(&end, answer, answer_of(block, size, answer), &taken),
                  GT_SENDS);
        else
            CHECK(gt_t1_missed(&end), GT_OK);
    }
    return code;
}

/* Runs an operation. Returns what is known of it after a fault, by the comment of `gt_t1_fault`, or
 * -1 if it has its answer. `last` gets what is known of its last command. */
static int32_t run(int32_t *last) {
    uint8_t apdu[GT_APDU_LIMIT], response[GT_ANSWER_LIMIT];
    int32_t known = GT_NOT_CARRIED_OUT, cause;
    size_t n, most;
    CHECK(gt_terminal_send(&terminal, COUNT, sizeof COUNT), GT_OK);
    while (gt_terminal_apdu(&terminal, apdu, &n, &most) == GT_OK) {
        if (carry(apdu, n) == GT_FAILED) {
            CHECK(gt_t1_fault(&end, &cause, last), GT_OK);
            CHECK(cause, GT_TRIES_SPENT);
            return *last > known ? *last : known;
        }
        CHECK(gt_t1_response(&end, response, sizeof response, &n), GT_OK);
        CHECK(gt_terminal_responded(&terminal, response, n), GT_OK);
        if (response[n - 2] == 0x61)
            known = GT_IN_PART;
        else if (known == GT_NOT_CARRIED_OUT)
            known = GT_UNKNOWN;
    }
    return -1;
}

/* The operation loses each block behind the first `first` ones. */
static void loses(int first, int32_t of_command, int32_t of_operation) {
    int32_t last = -1;
    count = 0;
    arrive = first;
    CHECK(gt_card_own(&card, DIRECTIONS), GT_OK);
    CHECK(gt_card_t1_begin(&card), GT_OK);
    CHECK(gt_t1_new(&end, GT_LRC, IFSC, GT_T1_TRIES, GT_T1_EXTENSIONS, GT_ANSWER_LIMIT), GT_OK);
    CHECK(gt_terminal_new(&terminal), GT_OK);
    CHECK(run(&last), of_operation);
    CHECK(last, of_command);
    CHECK(count, first > 2);
    gt_terminal_free(&terminal);
    gt_t1_free(&end);
    gt_card_free(&card);
}

int main(void) {
    loses(0, GT_NOT_CARRIED_OUT, GT_NOT_CARRIED_OUT);
    loses(1, GT_NOT_CARRIED_OUT, GT_NOT_CARRIED_OUT);
    loses(2, GT_UNKNOWN, GT_UNKNOWN);
    loses(3, GT_IN_PART, GT_IN_PART);
    loses(4, GT_NOT_CARRIED_OUT, GT_IN_PART);
    loses(5, GT_UNKNOWN, GT_IN_PART);
    loses(EXCHANGES, -1, -1);
    return check_result("outcomes");
}
