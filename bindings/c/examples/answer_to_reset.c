/* Resets the card at a tty, and prints its answer to reset and the protocol that it offers first.
 *
 *     answer_to_reset /dev/ttyUSB0
 */
#include <galliumtoad.h>
#include <gt_port.h>

#include <stdio.h>

/* a second, and how long a character of an answer may take: 9,600 etu */
enum { SECOND = 1000000, BAUD = 9600, WAIT = SECOND * (9600 / BAUD) };

/* Reads characters until they are an answer, or can't become one. Returns the code of the last
 * look at them. */
static int32_t take(struct gt_port *port, uint8_t bytes[GT_ATR_LIMIT], size_t *n, gt_atr *says)
{
    size_t place;
    int32_t code = GT_ATR_CUT;
    *n = 0;
    while ((code == GT_ATR_CUT || code == GT_ATR_CHECK_MISSING) && *n < GT_ATR_LIMIT) {
        bool is_damaged;
        if (gt_port_receive(port, &bytes[*n], &is_damaged, gt_port_now() + WAIT)
                != GT_PORT_IS_WELL
            || is_damaged)
            return code;
        code = gt_atr_read(bytes, ++*n, says, &place);
    }
    return code;
}

/* Prints an answer that is whole. */
static int print(const uint8_t *bytes, size_t n, const gt_atr *says)
{
    size_t i;
    for (i = 0; i < n; i++)
        printf("%02X", bytes[i]);
    printf(" T=%d\n", says->protocols[0]);
    return 0;
}

int main(int count, char **words)
{
    struct gt_port port;
    uint8_t bytes[GT_ATR_LIMIT];
    gt_atr says;
    size_t n = 0;
    int32_t code = GT_ATR_CUT;
    const char *fault = count == 2 ? gt_port_open(&port, words[1], BAUD) : "name a tty";
    if (fault == NULL) {
        fault = gt_port_reset(&port, GT_PORT_RTS, true);
        if (fault == NULL)
            code = take(&port, bytes, &n, &says);
        gt_port_close(&port);
    }
    if (fault == NULL && code == GT_OK)
        return print(bytes, n, &says);
    fprintf(stderr, "%s\n", fault == NULL ? gt_text(code) : fault);
    return 1;
}
