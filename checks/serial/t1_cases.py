"""Tests gt_serial and serial_card at T=1 (ISO/IEC 7816-3, clause 11). Each talks to an end that
these tests play, and both talk over a line that damages, loses, doubles and delays bytes."""

import os
import re
import signal
import sys
import tempfile
import time
from functools import reduce
from pathlib import Path

import card_cases
import explained
import t1_card
import terminal_cases
from lines import Line, play, trace_of
from programs import Program, in_time, must_end
from terminal_cases import Case, at_line, look

SELECT_APDU = "00A4040007A000000003101000"
NAME = "6F098407A00000000310109000"
GET_APDU = "00CA5F2000"
JOE = "5F20034A4F459000"
# T=1 first, IFSC 32, LRC, BWI 0 and CWI 3. At 9,600 baud BWT is 100 ms and 11 etu, and CWT 19 etu.
QUICK = "3B8081210323"
# As QUICK, with BWI 9: BWT is 51 s.
SLOW = "3B80812193B3"
# IFSC 254 and 4, and the times of QUICK.
LONG = "3B808131FE03CD"
IFSC_4 = "3B808131040337"
TOP = Path(__file__).resolve().parents[2]
BOOK = TOP / "examples/blocks"
HEADER = TOP / "bindings/c/include/galliumtoad.h"
BWT = 0.1
CAUSE = "operation 1: too many tries without progress: the card "
OUTCOMES = {"none": "has not carried out the command\n",
            "unknown": "may have carried out the command\n",
            "part": "has carried out the command\n"}


def block(pcb, info=""):
    """The digits of a block: NAD 00, PCB, LEN, the field and the LRC."""
    data = bytes([0, int(pcb, 16), len(info) // 2]) + bytes.fromhex(info)
    return data.hex().upper() + f"{reduce(lambda a, b: a ^ b, data):02X}"


def talk(*words):
    """A dialogue of blocks. Each is the sign of its sender, and its PCB and field."""
    return "".join(f"{sign} {block(*rest.split(':'))} " if sign in "<>" else f"{sign} {rest} "
                   for sign, rest in zip(words[::2], words[1::2]))


OPEN = talk(">", "C1:FE", "<", "E1:FE")
SELECTS = talk(">", f"00:{SELECT_APDU}", "<", f"00:{NAME}")
GETS = talk(">", f"40:{GET_APDU}", "<", f"40:{JOE}")
WORDS = [*terminal_cases.SELECT, *terminal_cases.GET]
ANSWERS = terminal_cases.SELECTED + terminal_cases.GOT


def dialogues():
    """A terminal with a card that these tests play."""
    whole = OPEN + SELECTS + GETS
    for inverse in (False, True):
        for echo in (False, True):
            yield Case(f"T=1, inverse {inverse}, echo {echo}",
                       f"< {'3F' if inverse else '3B'}{QUICK[2:]} {whole}", WORDS, ANSWERS,
                       echo=echo, inverse=inverse, slack=5000)
    first = f"< {QUICK} {OPEN}"
    sent = talk(">", f"00:{SELECT_APDU}")
    for title, words in (
        ("a damaged block", (">", "82", "<", f"00:{NAME}")),
        ("more time", ("<", "C3:02", ">", "E3:02", "<", f"00:{NAME}")),
        ("another IFSC", ("<", "C1:08", ">", "E1:08", "<", f"00:{NAME}")),
        ("a response in two blocks", ("<", f"20:{NAME[:8]}", ">", "90", "<", f"40:{NAME[8:]}")),
    ):
        bad = "< 00000200FF " if title == "a damaged block" else ""
        yield Case(f"T=1: {title}", first + sent + bad + talk(*words), terminal_cases.SELECT,
                   terminal_cases.SELECTED, echo=False, slack=2000)
    yield Case("T=1: a block that stops, long before BWT",
               f"< {SLOW} {OPEN}{sent}< 0000 " + talk(">", "82", "<", f"00:{NAME}"),
               terminal_cases.SELECT, terminal_cases.SELECTED, echo=False)
    answer = talk("<", f"00:{NAME}")
    more = talk("<", "C3:05", ">", "E3:05")
    yield Case("T=1: a block with a pause of less than the slack",
               first + sent + f"{answer[:10]} ~ 0.3 < {answer[10:]}" + GETS, WORDS, ANSWERS,
               echo=False, slack=2000)
    yield Case("T=1: an answer after more than one BWT", first + sent + more + f"~ 1.5 {answer}"
               + GETS, WORDS, ANSWERS, echo=False)
    wait = "~ 0.7 "
    yield Case("T=1: two commands, each within the patience",
               first + sent + wait + answer + GETS.replace("<", wait + "<"), WORDS, ANSWERS,
               echo=False, options=["--patience", "1"], slack=2000, quick=True)
    yield Case("T=1: by PPS", f"< 3B80800101 > FF01FE < FF01FE {OPEN}{SELECTS}",
               terminal_cases.SELECT, terminal_cases.SELECTED, options=["--protocol", "1"],
               slack=5000)


def block_waiting_time():
    """A terminal that gets no block asks again after BWT and the slack, together 0.3 s."""
    select = terminal_cases.SELECT
    with at_line("--no-echo", words=select, echo=False, slack=None) as (_, program, other):
        play(other, f"< {QUICK} " + talk(*[">", "C1:FE"] * 5, ">", f"00:{SELECT_APDU}",
                                         *[">", "82"] * 4), card=True)
        look(program, program.end(), "", CAUSE + OUTCOMES["unknown"], 1)
        assert 0.29 <= min(other.gaps[5:26:5]), f"{other.gaps}"
        assert max(other.gaps[5:26:5]) < 0.8, f"{other.gaps}"


def long_waiting_times():
    """BWT is 0.8 s with BWI 3, and CWT 0.85 s with CWI 13. A terminal that gets no more asks again
    after that and the slack, 0.2 s."""
    first = talk(">", "C1:FE")
    sent = talk(">", f"00:{SELECT_APDU}")
    for answer, dialogue, again, least in (
        ("3B8081213313", first, first, 1.0),
        ("3B8081210D2D", OPEN + sent + "< 0000 ", talk(">", "82"), 1.05),
    ):
        with at_line("--no-echo", words=terminal_cases.SELECT, echo=False, slack=None) as (
                _, program, other):
            play(other, f"< {answer} {dialogue}", card=True)
            count = len(other.gaps)
            play(other, again, card=True)
            program.kill(signal.SIGTERM)
            program.end()
            gap = other.gaps[count]
            assert least <= gap < least + 0.4, f"{answer}: {gap}"


def block_guard_time():
    """A terminal sends a block at the earliest BGT, 22 etu, after the card's last character, which
    is 18 ms at 1,200 baud. The card waits until the terminal's block has been sent, which takes 90
    ms. A busy machine is late at some blocks, so there are eight."""
    gets = [talk(">", f"{pcb}:{GET_APDU}", "~", "0.1", "<", f"{pcb}:{JOE}")
            for pcb in ("40", "00") * 4]
    words = [*terminal_cases.SELECT, *terminal_cases.GET * 8]
    with at_line("--no-echo", "--baud", "1200", words=words, echo=False) as (_, program, other):
        play(other, f"< {QUICK} {OPEN}{SELECTS}{''.join(gets)}", card=True)
        look(program, program.end(), terminal_cases.SELECTED + terminal_cases.GOT * 8, "", 0)
        select = 4 + len(SELECT_APDU) // 2
        get = 4 + len(GET_APDU) // 2
        assert min(other.gaps[5 + select :: get]) >= 0.018, f"{other.gaps}"


def faults():
    """A terminal gives up in each of its ways, or refuses an answer to reset. Each wait lasts for
    BWT and the slack."""
    first = f"< {QUICK} "
    sent = talk(">", f"00:{SELECT_APDU}")
    slack = 300
    for title, dialogue, fault in (
        ("before a command", talk(">", "C1:FE", "<", "C2", ">", "E2"),
         "operation 1: aborted by the card: the card " + OUTCOMES["none"]),
        ("after a command", OPEN + sent + talk(*[">", "82"] * 4), CAUSE + OUTCOMES["unknown"]),
        ("without S(IFS response)", talk(*[">", "C1:FE"] * 5) + sent + talk(*[">", "82"] * 4),
         CAUSE + OUTCOMES["unknown"]),
        ("within a response",
         OPEN + sent + talk("<", f"20:{NAME[:8]}", ">", "90", *[">", "92"] * 4),
         CAUSE + OUTCOMES["part"]),
        ("after S(ABORT request)", OPEN + sent + talk("<", "C2", ">", "E2"),
         "operation 1: aborted by the card: the card " + OUTCOMES["unknown"]),
    ):
        yield Case(f"T=1: a terminal gives up {title}", first + dialogue, terminal_cases.SELECT,
                   fault=fault, status=1, echo=False, slack=slack, waits=BWT)
    for title, answer, options, fault in (
        ("CRC", "3B8081410141", [],
         "the card's blocks use CRC, not LRC\n"),
        ("a reserved IFSC", "3B8081110010", [], "the card's IFSC is reserved\n"),
        ("a reserved BWI", "3B808121A383", [], "the card's block waiting time is reserved\n"),
        ("T=0 that is not offered", QUICK, ["--protocol", "0"], "the card does not talk T=0\n"),
        ("T=1 that is not offered", "3B00", ["--protocol", "1"], "the card does not talk T=1\n"),
        ("T=2 alone", "3B800282", [], "the card talks neither T=0 nor T=1\n"),
        ("T=0 in specific mode of T=1", "3B90951001", ["--protocol", "0"],
         "the card does not talk T=0\n"),
    ):
        yield Case(f"T=1 is refused: {title}", f"< {answer}", terminal_cases.SELECT, fault=fault,
                   status=1, options=options, slack=2000)


# A block that is damaged. The terminal asks again by R(0), with the error 1 if the LRC is wrong,
# and 2 otherwise. The other rules of blocks and dialogues are proved, and the book of examples
# has dialogues. Here is what the program itself does: it receives a block, and drops the rest.
BROKEN = (
    ("fewer bytes than LEN", "00000D6F"),
    ("a byte behind it", block("00", NAME) + "00"),
    ("a wrong LRC", block("00", NAME)[:-2] + "00"),
)


def breaks():
    """A card whose block is damaged once; and cards that are given up."""
    first = f"< {QUICK} {OPEN}"
    sent = talk(">", f"00:{SELECT_APDU}")
    select = terminal_cases.SELECT
    slack = 500
    for title, bad in BROKEN:
        asks = "81" if title == "a wrong LRC" else "82"
        yield Case(f"T=1: {title}", f"{first}{sent}< {bad} " + talk(">", asks, "<", f"00:{NAME}"),
                   select, terminal_cases.SELECTED, echo=False, slack=slack)
    dropped = f"{first}{sent}< {block('00', NAME)}00E1 " + talk(">", "82", "<", f"00:{NAME}")
    yield Case("T=1: -v shows the bytes behind a block", dropped, select,
               terminal_cases.trace_of(dropped) + terminal_cases.SELECTED, options=["-v"],
               echo=False, slack=slack)
    more = int(re.search(r"GT_T1_EXTENSIONS = (\d+)", HEADER.read_text(encoding="utf-8"))[1])
    yield Case("T=1: more time for ever", first + sent + talk(*["<", "C3:01", ">", "E3:01"] * more)
               + talk("<", "C3:01"), select, echo=False, slack=slack, status=1,
               options=["--baud", "1000000"],
               fault="operation 1: too many requests from the card: the card "
               + OUTCOMES["unknown"])
    yield Case("T=1: a response of 259 bytes", first + sent
               + talk("<", "20:" + "00" * 254, ">", "90", "<", "40:" + "00" * 5), select,
               echo=False, slack=slack, status=1,
               fault="operation 1: response too long: the card " + OUTCOMES["part"])
    yield Case("T=1: a response without a status", first + sent + talk("<", "00:6F"), select,
               echo=False, slack=slack, status=1, fault="operation 1: no status\n")


def echoes():
    """A line that returns the terminal's first block: at once, late, in pieces 50 ms apart, damaged
    at first, or before the card's answer."""
    sent = talk(">", "C1:FE")
    echo = talk("<", "C1:FE")
    for title, dialogue in (
        ("at once", sent + echo),
        ("30 ms late", f"{sent}~ 0.03 {echo}"),
        ("in pieces", f"{sent}~ 0.05 {echo[:4]} ~ 0.05 < {echo[4:10]} ~ 0.05 < {echo[10:]}"),
        ("after a damaged block", f"{sent}< 00C101FF3E {sent}{echo}"),
        ("before the card's answer", sent + echo + "~ 0.02 " + talk("<", "E1:FE")),
    ):
        yield Case(f"T=1: a line that echoes, {title}", f"< {QUICK} {dialogue}",
                   terminal_cases.SELECT, fault="operation 1: the line echoes\n", status=1,
                   echo=False, heaps=True)
    yield Case("T=1: an answer that is the block but for its last byte",
               f"< {QUICK} {sent}< 00C101FE3F {OPEN}{SELECTS}", terminal_cases.SELECT,
               terminal_cases.SELECTED, echo=False, heaps=True, slack=2000)
    yield Case("T=1: an answer that begins as the block does, and waits",
               f"< {QUICK} {sent}< 00 ~ 0.2 < E101FE1E {SELECTS}", terminal_cases.SELECT,
               terminal_cases.SELECTED, echo=False, slack=2000)


MAY_HAVE = "the card may have carried out the command\n"


def echoes_of_blocks():
    """A line that returns other blocks than the first, though it should have no echo; and blocks of
    a card that are the same as the terminal's, or nearly."""
    fault = f"the line echoes: {MAY_HAVE}"
    select = terminal_cases.SELECT
    sent, answer = (talk(sign, f"00:{SELECT_APDU}") for sign in "><")
    lone = talk("<", f"00:{NAME}")
    other = talk("<", "C3:02", ">", "E3:02", "<", "E3:02")
    for title, dialogue in (
        ("at once", sent + answer),
        ("in pieces", f"{sent}~ 0.05 {answer[:4]} ~ 0.05 < {answer[4:10]} ~ 0.05 < {answer[10:]}"),
        ("after a damaged one", f"{sent}< {answer[2:-3]}FF {talk('>', '81', '<', '81')}"
         + sent + answer),
        ("after a lost one", sent + talk(">", "82", "<", "82") + sent + answer),
        ("before the card's answer", f"{sent}{answer}~ 0.02 {lone}"),
        ("and the card's answer at once", f"{sent}{answer.rstrip()}{lone[2:]}"),
        ("that grants time", sent + other),
        ("that grants an IFSC", sent + talk("<", "C1:20", ">", "E1:20", "<", "E1:20")),
    ):
        yield Case(f"T=1: a line that echoes I-blocks, {title}", f"< {QUICK} {OPEN}{dialogue}",
                   [*select, *terminal_cases.GET], fault=f"operation 1: {fault}", status=1,
                   options=["-k"], echo=False, heaps=True)
    get = talk(">", f"40:{GET_APDU}", "<", f"40:{GET_APDU}")
    yield Case("T=1: a line that echoes the second command", f"< {QUICK} {OPEN}{SELECTS}{get}",
               WORDS, terminal_cases.SELECTED, f"operation 2: {fault}", 1, echo=False, heaps=True)
    chain = talk(">", "20:80DA0000", "<", "20:80DA0000")
    yield Case("T=1: a line that echoes the front of a command", f"< {IFSC_4} {OPEN}{chain}",
               ["send", "80DA00000141"], fault=f"operation 1: {fault}", status=1, echo=False,
               heaps=True)
    yield Case("T=1: an R-block that is the same, after a lost I-block", f"< {QUICK} {OPEN}{sent}"
               + talk(">", "82", "<", "82") + sent + lone, select, terminal_cases.SELECTED,
               echo=False, heaps=True)
    yield Case("T=1: a response that is as long as the command", f"< {QUICK} {OPEN}"
               + talk(">", "00:80B2000000", "<", "00:80B2009000"), ["send", "80B2000000"],
               "= 9000 80B200\n", echo=False, heaps=True)
    yield Case("T=1: an echo of I-blocks, as there should be", f"< {QUICK} {OPEN}{sent}{lone}",
               select, terminal_cases.SELECTED, slack=5000)


def front_of(tail):
    """The field of an I-block with the PCB 20, whose last bytes, with the LRC, are these."""
    for byte in range(256):
        info = f"{byte:02X}{tail[:-2]}"
        if block("20", info).endswith(tail):
            return info
    raise AssertionError(f"no field for {tail}")


def resets_itself():
    """A card that resets itself sends its answer to reset in place of a block, or within one. A
    fresh card would carry the command out again."""
    fault = "operation 1: the card has reset itself"
    select = terminal_cases.SELECT
    again = f"< {QUICK} "
    sent = talk(">", f"00:{SELECT_APDU}")
    answer = talk("<", f"00:{NAME}")
    slow = "".join(f"~ 0.4 < {QUICK[at:at + 2]} " for at in range(0, len(QUICK), 2))
    for title, dialogue in (
        ("in place of a response", sent + again),
        ("a byte at a time", sent + slow),
        ("after a lost response", sent + talk(">", "82") + again),
        ("after more time", sent + talk("<", "C3:02", ">", "E3:02") + again),
        ("and sends more", f"{sent}{again[:-1]}00FF "),
        ("twice", f"{sent}{again[:-1]}{QUICK} "),
        ("within a block", f"{sent}< 00000D6F09{QUICK} "),
        ("within a block, up to its end", f"{sent}< 0000076F09{QUICK} "),
        ("within a block, beyond its end", f"{sent}< 0000036F09{QUICK} "),
        ("behind a block", f"{sent}{answer[:-1]}{QUICK} "),
    ):
        yield Case(f"T=1: a card that resets itself, {title}", f"< {QUICK} {OPEN}{dialogue}",
                   [*select, *terminal_cases.GET], fault=f"{fault}: {MAY_HAVE}", status=1,
                   options=["-k"], echo=False, slack=300)
    for inverse in (True, False):
        for echo in (True, False):
            yield Case(f"T=1: a card that resets itself, inverse {inverse}, echo {echo}",
                       f"< {'3F' if inverse else '3B'}{QUICK[2:]} {OPEN}{sent}"
                       f"< {'3F' if inverse else '3B'}{QUICK[2:]} ", select, status=1,
                       fault=f"{fault}: {MAY_HAVE}", echo=echo, inverse=inverse)
    yield Case("T=1: a card that resets itself before a command", f"< {QUICK} {talk('>', 'C1:FE')}"
               f"{again}", select, fault=f"{fault}\n", status=1, echo=False)
    # the third byte is LEN of a block that is as long
    yield Case("T=1: a card that resets itself, and its answer is as long as a block",
               f"< 3BA00101A0 {OPEN}{sent}< 3BA00101A0 ", select, status=1,
               fault=f"{fault}: {MAY_HAVE}", echo=False)
    # with N = 100 a character takes 93 ms
    yield Case("T=1: a card that resets itself within the terminal's block",
               "< 3BC06481210307 > 00C1 < 3BC06481210307 ", select, status=1, fault=f"{fault}\n",
               echo=False, options=["--baud", "1200"])
    # no reset: blocks that are valid, or damaged
    data = f"{QUICK}9000"
    whole = talk(">", "00:80B0000000", "<", f"00:{data}")
    field = front_of(QUICK)
    parts = talk(">", "00:80B0000000", "<", f"20:{field}", ">", "90", "<", "40:9000")
    for title, dialogue, words, output in (
        ("data that are its answer to reset", whole, ["send", "80B0000000"], f"= 9000 {QUICK}\n"),
        ("a block that ends as its answer to reset", parts, ["send", "80B0000000"],
         f"= 9000 {field}\n"),
        ("a damaged block that begins with TS", f"{sent}< 3B00026F106F " + talk(">", "81") + answer,
         select, terminal_cases.SELECTED),
        ("an answer to reset but for its last byte", f"{sent}< {QUICK[:-2]}22 " + talk(">", "82")
         + answer, select, terminal_cases.SELECTED),
        ("the front of its answer to reset", f"{sent}< {QUICK[:4]} " + talk(">", "82") + answer,
         select, terminal_cases.SELECTED),
    ):
        yield Case(f"T=1: a card without a reset, {title}", f"< {QUICK} {OPEN}{dialogue}", words,
                   output, echo=False, slack=300)


def outcomes():
    """What a fault says of an operation whose first command may be carried out, or not. The IFSC is
    4, so that each command takes two blocks."""
    first = f"< {IFSC_4} {OPEN}"
    command = talk(">", "20:80100000", "<", "90", ">", "40:00")
    lost = talk(*[">", "92"] * 4)
    lost_again = talk(*[">", "82"] * 4)
    for title, dialogue, outcome in (
        ("its first block", talk(">", "20:80100000") + lost_again, "none"),
        ("its second block", command + lost_again, "unknown"),
        ("GET RESPONSE", command + talk("<", "00:6103", ">", "20:00C00000") + lost, "part"),
        ("GET RESPONSE, its second block", command + talk("<", "00:6103", ">", "20:00C00000", "<",
                                                          "90", ">", "40:03") + lost, "part"),
        ("GET RESPONSE, again after 6CXX", command + talk(
            "<", "00:6103", ">", "20:00C00000", "<", "90", ">", "40:03", "<", "40:6C02",
            ">", "20:00C00000") + lost_again, "part"),
        ("it again after 6CXX", command + talk("<", "00:6C03", ">", "20:80100000") + lost,
         "unknown"),
    ):
        yield Case(f"T=1: what is known after the loss of {title}", first + dialogue,
                   ["send", "8010000000"], fault=CAUSE + OUTCOMES[outcome], status=1, echo=False,
                   slack=300)
    pieces = ["put", "5F20", "41*256"]
    yield Case("T=1: what is known after the loss of the second piece of a put", f"< {LONG} {OPEN}"
               + talk(">", "20:" + "10DA5F20FF" + "41" * 249, "<", "90", ">", "40:" + "41" * 6,
                      "<", "00:9000", ">", "00:00DA5F200141", *[">", "92"] * 4), pieces,
               fault=CAUSE + OUTCOMES["unknown"], status=1, echo=False, slack=300)


def patience():
    """What a card does for ever, so that the terminal gives up its command after --patience. It
    asks for more time, or its block does not end, or what follows that."""
    sent = OPEN + talk(">", f"00:{SELECT_APDU}")
    yield "asks for more time", sent, block("C3", "01")
    yield "asks for a long time", sent + talk("<", "C3:FF", ">", "E3:FF"), ""
    yield "asks for a long time at first", talk(">", "C1:FE", "<", "C3:FF", ">", "E3:FF"), ""
    yield "sends a byte of its block at a time", sent + "< 0000FE ", "00"
    yield "sends more than its block", sent + f"< {block('00', NAME)}00 ", "00"


def gives_up(dialogue, rest):
    """Plays a dialogue, and then sends the rest again and again, until the terminal ends."""
    select = {"words": terminal_cases.SELECT, "echo": False, "slack": None}
    with at_line("--no-echo", "--patience", "1", **select) as (line, program, other):
        other.heaps = True
        play(other, f"< {QUICK} {dialogue}", card=True)
        began = time.monotonic()
        while program.process.poll() is None and time.monotonic() < began + 10:
            time.sleep(0.1)
            line.read(300, 0)
            other.send(rest)
        ended = time.monotonic() - began
        look(program, program.end(), "", f"operation 1: {terminal_cases.TOO_LONG}", 1)
        must_end(ended, 0.8, 1.0 + terminal_cases.LATE)


def chapter():
    """The dialogues of the book, with the card's part played by these tests."""
    for file in sorted(BOOK.glob("*.talk")):
        lines = [line for line in file.read_text(encoding="utf-8").splitlines() if line[0] != "#"]
        rows = [line.split()[:2] for line in lines if line[0] in "<>~"]
        output = "".join(f"{line}\n" for line in lines if line[0] == "=")
        faults = "".join(f"{line[2:]}\n" for line in lines if line[0] == "!")
        words = " ".join(line for line in lines if line[0] not in "<>~=!").split()
        yield Case(f"T=1: the book, {file.stem}", " ".join(word for row in rows for word in row),
                   words, output, faults, bool(faults), echo=False)


SELECTED = talk("<", f"00:{NAME}")
R0 = talk("<", "82")
# T=0 first, then T=1: with LRC, and with CRC.
BY_PPS = "3B80800101"
CRC_BY_PPS = "3B8080410140"


def own_part():
    """A title, and the blocks of a terminal and a card after an S(IFS request)."""
    sent = talk(">", f"00:{SELECT_APDU}")
    yield "a wrong LRC", sent[:-3] + "FF " + talk("<", "81") + sent + SELECTED
    yield "a byte behind the block", sent[:-1] + "00 " + R0 + sent + SELECTED
    yield "a block that stops", sent[:16] + " " + R0 + sent + SELECTED


def own_application():
    """The application of tests/standin/own_card.c, which asks for more time once."""
    asks = talk(">", "40:80CA000000", "<", "C3:03", ">", "82", "<", "C3:03", ">", "E3:03",
                "<", "40:419000")
    yield "T=1", QUICK, talk(">", "00:80DA00000141", "<", "00:9000") + asks + talk(
        ">", "20:80DA0000", "<", "90", ">", "40:0142", "<", "00:9000",
        ">", "00:80CA000000", "<", "40:429000")
    yield "T=0", "3B00", "> 80DA000001 < DA > 41 < 9000 > 80CA000001 < 60CA419000 "


def at_card():
    """A card with a terminal that these tests play."""
    whole = OPEN + SELECTS + GETS
    for inverse in (False, True):
        answer = ("3F" if inverse else "3B") + QUICK[2:]
        for echo in (False, True):
            for heaps in (False, True):
                yield card_cases.Case(f"T=1: a card, inverse {inverse}, echo {echo}, heaps {heaps}",
                                      f"< {answer} {whole}", answer, ["-v"], echo, inverse, heaps,
                                      output=trace_of(f"< {answer} {whole}"), slack=1500)
    for title, dialogue in own_part():
        yield card_cases.Case(f"T=1: a card, {title}", f"< {QUICK} {OPEN}{dialogue}", QUICK,
                              echo=False, slack=300)
    for title, answer, dialogue in own_application():
        yield card_cases.Case(f"{title}: a card of an application", f"< {answer} {dialogue}",
                              answer, echo=False, slack=300, program="own_card", objects="")
    yield card_cases.Case("T=1: a card, a block that stops after its first byte",
                          f"< {SLOW} {OPEN}> 00 {R0}{SELECTS}", SLOW, echo=False, slack=300)
    lines = (BOOK / "fine.talk").read_text(encoding="utf-8").splitlines()
    words = " ".join(" ".join(line.split()[:2]) for line in lines if line[0] in "<>")
    yield card_cases.Case("T=1: the book at a card", words, QUICK, echo=False, slack=300)
    for title, pps, answer, baud in (
        ("PPS", "> FF01FE < FF01FE", BY_PPS, 9600),
        ("PPS and another rate", "> FF11957B < FF11957B", "3B9095800184", 111600),
        ("no PPS in specific mode", "", "3B9095110115", 111600),
    ):
        yield card_cases.Case(f"T=1: a card, {title}", f"< {answer} {pps} {whole}", answer,
                              echo=False, baud=baud, slack=300)
    for title, pps, answer in (
        ("T=1 with a CRC", "FF01FE", CRC_BY_PPS),
        ("T=0 of one that has T=1 alone", "FF00FF", QUICK),
    ):
        yield card_cases.Case(f"PPS for {title}", f"< {answer} > {pps}", answer, mute=True,
                              fault=card_cases.NO_PPS)


def never_stops():
    """A card is mute, and ends without a reset, if its terminal does not stop sending."""
    text = f"atr {QUICK}\n{card_cases.APP}"
    with card_cases.at_line("--no-echo", text=text) as (_, program, other):
        play(other, f"< {QUICK} > {block('C1', 'FE')}", card=False)
        for _ in range(10000):
            if program.process.poll() is not None:
                break
            other.send("00")
            time.sleep(0.0005)
        other.take_nothing(0)
        look(program, program.end(), "", "the other end does not stop sending\n", 1)


def each_opening():
    """Each opening of a card's own line is a reset: the card talks T=0, or T=1 after PPS, again."""
    with card_cases.Far("--no-echo", text=f"atr {BY_PPS}\n{card_cases.APP}") as far:
        for dialogue in (
            f"> FF01FE < FF01FE {OPEN}{SELECTS}" + talk(">", f"60:{GET_APDU[:6]}", "<", "80"),
            card_cases.ASK_WORDS,
            f"> FF01FE < FF01FE {OPEN}" + talk(">", f"00:{GET_APDU}", "<", "00:6985"),
        ):
            far.plays(f"< {BY_PPS} {dialogue}")
            time.sleep(0.3)




class Talk:
    """A select, a put of `size` bytes and a get of them: the words, and the expected answers."""

    def __init__(self, size):
        self.value = bytes(at * 7 % 251 for at in range(size))
        value = self.value.hex().upper()
        self.words = ["select", "A0000000031010", "put", "DF01", value, "get", "DF01"]
        self.answers = f"= 9000 {NAME[:-4]}\n= 9000\n= 9000 DF0182{size:04X}{value}\n"
        # SELECT, the commands of the put, and those of the get: tag and length have 5 bytes
        self.commands = 1 - -size // 255 - -(size + 5) // 256

    def is_begun(self, log):
        """Checks that the card has carried out the first of these commands, each once."""
        tags = [apdu[:5] for apdu in log]
        pieces = [apdu[5:] for apdu in log if apdu[1] == 0xDA]
        assert len(log) <= self.commands, f"{len(log)} commands"
        assert self.value.startswith(b"".join(pieces)), "the pieces of the put are others"
        assert [tag[1] for tag in tags] == sorted((tag[1] for tag in tags), key=[
            0xA4, 0xDA, 0xCA, 0xC0].index), "the commands are in another order"
        assert sum(tag[1] in (0xA4, 0xCA) for tag in tags) <= 2, "a command was carried out twice"


LONG_TALK = Talk(3000)
TALK = Talk(600)
# The number of random lines: SESSIONS in the environment, or fewer if words select tests or the
# first fault ends the run.
SESSIONS = int(os.environ.get("SESSIONS", 2000 if len(sys.argv) == 1 else 40))


FAST = ["--no-echo", "--baud", 1000000, "--slack"]
# A random line looks for no leaks, which takes half of it. The other lines do.
NO_LEAKS = {"ASAN_OPTIONS": os.environ.get("ASAN_OPTIONS", "") + ":detect_leaks=0"}


def over(talk, noise, slack):
    """Runs gt_serial over a noisy line with the stand-in, which keeps EMV's narrower rules. Returns
    the program, and the commands that the stand-in has carried out."""
    line = Line()
    objects = t1_card.Objects()
    play = t1_card.Play(line, LONG, t1_card.Card(objects), noise, 0, 0.3)
    try:
        program = Program("gt_serial", [*FAST, slack, line.name, *talk.words])
        play.start()
        program.end()
        play.end()
    finally:
        line.close()
    return program, objects.log


def between(talk, noise, slack, stops, late=0, environment=()):
    """Runs gt_serial with serial_card over a noisy line. Returns gt_serial, and the commands that
    the card has carried out. `slack` and `stops` are the slack of both programs in milliseconds.
    trace_explain has to explain the traces of both. `output` of gt_serial is then without its
    trace."""
    ends = Line(), Line()
    wire = t1_card.Wire(*ends, noise, late)
    try:
        with tempfile.TemporaryDirectory() as folder:
            path = card_cases.table(folder, f"atr {LONG}\n{card_cases.APP}")
            words = ["-v", *FAST, stops, ends[1].name, path]
            card = Program("serial_card", words, environment=environment)
            wire.pass_answer(len(LONG) // 2)
            words = ["-v", *FAST, slack, ends[0].name, *talk.words]
            program = Program("gt_serial", words, environment=environment)
            wire.start()
            program.end()
            wire.end()
    finally:
        for end in ends:
            end.close()
    look(card, card.end(), card.output, card_cases.GONE, 1)
    log = t1_card.carried_out(card.output)
    # Parts of two damaged blocks may make up a valid one, which no LRC reveals.
    of_card, of_terminal = ([t1_card.valid_blocks(it.output, end) for it in (program, card)]
                            for end in "<>")
    if of_card[0] <= of_card[1]:
        explained.look(program.output, log, True, 99 if program.process.returncode else 0)
    if of_terminal[1] <= of_terminal[0]:
        explained.look(card.output, log, False, 1)
    answers = [line for line in program.output.splitlines(True) if line[0] == "="]
    program.output = "".join(answers)
    return program, log


MILD = (
    ("no noise", {}),
    ("each tenth block is changed", {at: "changed" for at in range(5, 400, 10)}),
    ("each tenth block is lost", {at: "lost" for at in range(8, 100, 10)}),
    ("each tenth block is short", {at: "short" for at in range(9, 100, 10)}),
    ("each tenth block has a byte twice", {at: "doubled" for at in range(6, 100, 10)}),
    ("each tenth block stops", {at: "stopped" for at in range(7, 100, 10)}),
    ("the first four blocks are lost", {at: "lost" for at in range(1, 5)}),
    ("four in a row to the card", {at: "changed" for at in (21, 23, 25, 27)}),
)


def mild(fates, is_narrow):
    """On a mild line all operations get their answers, even from a card that keeps EMV's narrower
    rules."""
    noise = t1_card.Noise(1, fates)
    of = LONG_TALK, noise, 800
    program, log = over(*of) if is_narrow else between(*of, 300)
    look(program, program.process.returncode, LONG_TALK.answers, "", 0)
    LONG_TALK.is_begun(log)
    assert len(log) == LONG_TALK.commands, f"{len(log)} commands"


def at_random(seed):
    """On any line the answers are right, or a fault makes a true statement about its command."""
    noise = t1_card.Noise(seed, well=(0.97, 0.9, 0.75, 0.5)[seed % 4])
    program, log = between(TALK, noise, 60, 40, 0.08, NO_LEAKS)
    TALK.is_begun(log)
    assert TALK.answers.startswith(program.output), f"{program.output!r}, a wrong answer"
    if program.process.returncode == 0:
        assert program.output == TALK.answers and not program.faults, program.faults
        return
    number = program.output.count("\n") + 1
    cause = f"operation {number}: too many tries without progress: the card "
    wanted = [cause + outcome for outcome in OUTCOMES.values()]
    assert program.faults in wanted, f"{program.faults!r}"


def tests():
    """Each test of this part: its title, and a function that raises an error if it fails."""
    for case in (*dialogues(), *faults(), *breaks(), *echoes(), *echoes_of_blocks(),
                 *resets_itself(), *outcomes(), *chapter()):
        yield case.title, lambda case=case: terminal_cases.tried(case)
    for title, *of in patience():
        yield f"T=1: a card that {title}", lambda of=of: in_time(lambda: gives_up(*of))
    for case in at_card():
        yield case.title, lambda case=case: card_cases.run(case)
    yield "T=1: each opening of a card's line", each_opening
    yield "T=1: a terminal that does not stop sending", never_stops
    yield "T=1: the block waiting time", lambda: in_time(block_waiting_time)
    yield "T=1: long waiting times", lambda: in_time(long_waiting_times)
    yield "T=1: the block guard time", block_guard_time
    for title, fates in MILD:
        # a card by EMV is silent for good after the fourth
        for is_narrow in (False,) if title.startswith("four") else (False, True):
            yield (f"T=1, 3,000 bytes, {title}, EMV {is_narrow}",
                   lambda of=(fates, is_narrow): mild(*of))
    for seed in range(SESSIONS):
        yield f"T=1, a line at random, {seed}", lambda seed=seed: at_random(seed)
