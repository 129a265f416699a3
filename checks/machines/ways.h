/* The ways to run a terminal or an exchange with a card. talk.c includes this once for each: END is
 * the type, CALL names a function of it, and WAY one of these. */

static void WAY(by_characters)(END *end, gt_card *card)
{
    int turns;
    for (turns = 0; turns < TURNS; turns++) {
        uint8_t byte = 0;
        int32_t said = code(CALL(next)(end, &byte));
        if (said == GT_SENDS) {
            code(gt_card_take(card, heard(byte)));
            continue;
        }
        if (said != GT_OK)
            return;
        said = code(gt_card_turn(card, &byte));
        if (said == GT_SENDS)
            code(CALL(take)(end, heard(byte)));
        else if (!is_asked(card, said))
            return;
    }
}

static void WAY(by_buffers)(END *end, gt_card *card)
{
    int turns;
    for (turns = 0; turns < TURNS; turns++) {
        size_t n = 0, taken = 0, at = 0;
        int32_t said = code(CALL(send_bytes)(end, line, 1 + any(600), &n));
        mix_bytes(line, n);
        disturb(line, n);
        while (at < n && code(gt_card_receive_bytes(card, line + at, n - at, &taken)) == GT_OK &&
               taken != 0)
            at += taken;
        if (said < 0 || said == GT_DONE)
            return;
        if (said == GT_SENDS)
            continue;
        is_asked(card, code(gt_card_send_bytes(card, line, 1 + any(600), &n)));
        mix_bytes(line, n);
        disturb(line, n);
        code(CALL(receive_bytes)(end, line, n, &taken));
        mix(taken);
    }
}

static void WAY(by_tpdus)(END *end, gt_card *card)
{
    size_t n = 0, most = 0;
    while (code(CALL(tpdu)(end, line, &n, &most)) == GT_OK) {
        mix_bytes(line, n);
        mix(most);
        n = answered(card, gt_card_tpdu, n);
        if (code(CALL(answered)(end, response, n)) < 0)
            return;
    }
}

static void WAY(by_commands)(END *end, gt_t1 *t1, gt_card *card, int by_blocks)
{
    size_t n = 0, most = 0;
    while (code(CALL(apdu)(end, line, &n, &most)) == GT_OK) {
        mix_bytes(line, n);
        mix(most);
        n = by_blocks ? carried(t1, card, n) : answered(card, gt_card_apdu, n);
        if (code(CALL(responded)(end, response, n)) < 0)
            return;
    }
}

/* Runs the command or operation in progress, and reads its answer. */
static void WAY(run)(END *end, gt_t1 *t1, gt_card *card, int by_blocks)
{
    uint16_t status = 0;
    size_t n = 0;
    switch (by_blocks ? 3 : any(4)) {
    case 0: WAY(by_characters)(end, card); break;
    case 1: WAY(by_buffers)(end, card); break;
    case 2: WAY(by_tpdus)(end, card); break;
    default: WAY(by_commands)(end, t1, card, by_blocks);
    }
    code(CALL(data_sent)(end));
    if (code(CALL(answer)(end, &status, response, any(3) ? sizeof response : 4, &n)) == GT_OK) {
        mix_bytes(response, n);
        count_answer(status);
    }
}
