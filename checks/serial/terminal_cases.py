"""Tests gt_serial with a card that these tests play at the other end of its line.

The expected results follow from the rules of the line (ISO/IEC 7816-3) and of the card, and from
the description of the program in bindings/c/README.md."""

import fcntl
import os
import signal
import struct
import time
from contextlib import contextmanager
from dataclasses import dataclass, field

from lines import Line, Other, play, trace_of
from programs import Program, in_time, must_end

USAGE = (
    "\nUsage: gt_serial [OPTIONS] TTY [OPERATION..]\n"
    "\nFor more information, try '--help'.\n"
)
TCGETS2 = 0x802C542A

SELECT = ["select", "A0000000031010"]
SELECT_WORDS = (
    "> 00A4040007 < A4 > A0000000031010 < 610B > 00C000000B < C06F098407A00000000310109000 "
)
SELECTED = "= 9000 6F098407A0000000031010\n"
GET = ["get", "5F20"]
GET_WORDS = "> 00CA5F2000 < 6C06 > 00CA5F2006 < CA5F20034A4F459000 "
GOT = "= 9000 5F20034A4F45\n"
DONE = "< 9000 "
SHORT = ["send", "00200000"]
SHORT_WORDS = "> 0020000000 "
TOO_LONG = "the command takes longer than --patience\n"
# How many seconds late a program may end on a busy machine.
LATE = 4.0


@dataclass
class Case:
    """A dialogue that the other end plays, and the program's expected output."""

    title: str
    dialogue: str
    words: list
    output: str = ""
    fault: str = ""
    status: int = 0
    options: list = field(default_factory=list)
    given: bytes = b""
    echo: bool = True
    inverse: bool = False
    heaps: bool = False
    # in milliseconds; None is the program's default, 200
    slack: int = 600
    # the program ends at least this time and the slack after the last character, and at most this
    # much later
    waits: float = None
    late: float = LATE
    # the rate of the tty before the last word of the dialogue
    baud: int = None
    # the least time before each of the terminal's characters
    gap: float = 0.0
    # what the program sends after the dialogue
    left: str = ""
    # the case measures short times, and is run again if a busy machine was late
    quick: bool = False


def rate_of(line):
    """The rate of a line's settings."""
    return struct.unpack("4I20s2I", fcntl.ioctl(line.near, TCGETS2, bytes(44)))[-1]


def run(case):
    """Plays a case. A wrong result is an error."""
    with Line() as line:
        options = [] if case.slack is None else ["--slack", case.slack]
        options += case.options if case.echo else ["--no-echo", *case.options]
        other = Other(line, case.echo, case.inverse, case.heaps)
        *most, sign, last_word = ["", "", *case.dialogue.split()]
        played = ""
        baud = None
        # the answer to reset is on the line when the program opens it, which is the reset
        first = most[:4] if most[2:3] == ["<"] and len(most) > 4 else []
        play(other, " ".join(first), card=True)
        program = Program("gt_serial", [*options, line.name, *case.words], case.given)
        other.sent_at = program.began
        try:
            play(other, " ".join(most[len(first):]), card=True)
            baud = rate_of(line)
            play(other, f"{sign} {last_word}", card=True)
        except AssertionError as why:
            played = f": {why}"
        last = other.sent_at
        status = program.end()
        look(program, status, case.output, case.fault, case.status, played)
        left = line.read(300, 0).hex()
        assert left == case.left, f"{left} is on the line after the dialogue"
        waited = program.began + program.seconds - last
        least = 0 if case.waits is None else case.waits + (case.slack or 200) / 1000
        must_end(waited, least, least + case.late)
        assert line.is_put_back(), "the tty is not set as it was before"
        assert case.baud in (None, baud), f"the tty runs at {baud} baud"
        assert not other.gaps or min(other.gaps) >= case.gap, f"{min(other.gaps)} s between two"


def tried(case):
    """Plays a case, one that measures times in `in_time`."""
    return in_time(lambda: run(case)) if case.quick or case.waits is not None else run(case)


def look(program, status, output, fault, wanted, played=""):
    """Compares the output and the status of a program with the expected ones."""
    told = f"{program.faults[-2000:]!r}{played}"
    assert program.faults == fault, f"standard error: {told}, and not {fault!r}"
    found = program.output
    assert found == output, f"standard output: {found!r}, and not {output!r}{played}"
    assert status == wanted, f"status {status}, and not {wanted}{played}"
    assert not played, played


def sessions():
    """The same dialogue in each convention, with and without echo, by single bytes and in heaps."""
    put = ["put", "5F20", "414E4E"]
    dialogue = SELECT_WORDS + GET_WORDS + "> 00DA5F2003 < DA > 414E4E " + DONE
    parts = [trace_of("< TS00 " + SELECT_WORDS) + SELECTED, trace_of(GET_WORDS)[6:] + GOT]
    parts.append(trace_of("> 00DA5F2003 < DA > 414E4E < 9000")[6:] + "= 9000\n")
    for inverse in (False, True):
        ts = "3F" if inverse else "3B"
        for echo in (True, False):
            for heaps in (True, False):
                yield Case(
                    f"a session, TS {ts}, echo {echo}, heaps {heaps}",
                    f"< {ts}00 {dialogue}",
                    ["-v", *SELECT, *GET, *put],
                    "".join(parts).replace("TS", ts),
                    echo=echo,
                    inverse=inverse,
                    heaps=heaps,
                    slack=5000,
                    baud=9600,
                )


def statuses():
    """A status other than 9000 ends the program with 1. -k continues."""
    refused = "> 00CA5F2000 < 6985 "
    yield Case("a status", "< 3B00 " + refused, [*GET, *SELECT], "= 6985\n", status=1)
    yield Case("a status, and -k", "< 3B00 " + refused + SELECT_WORDS, [*GET, *SELECT],
               "= 6985\n" + SELECTED, status=1, options=["-k"])
    yield Case("options among operations", f"< 3B00 {refused}{SELECT_WORDS}> 00DA5F2000 < 9000",
               ["get", "-k", "5F20", *SELECT, "--slack", "5000", "put", "5F20", "-"],
               "= 6985\n" + SELECTED + "= 9000\n", status=1)
    yield Case("options before and after the tty's name", "< 3B00 " + SELECT_WORDS,
               ["--patience", "5", "--", *SELECT], SELECTED, options=["-k"])
    yield Case("operations of standard input", "< 3B00 " + SELECT_WORDS + GET_WORDS, [],
               SELECTED + GOT, given=b"# a name\nselect A0000000031010\nget 5F20\n",
               options=["-f", "-"])
    yield Case("a fault in a file is told by its line", "< 3B00 " + SELECT_WORDS + "> 00CA5F2000 ",
               [], SELECTED, "line 3: the card is silent\n", 1,
               given=b"# a name\nselect A0000000031010\nget 5F20\n", options=["-f", "-"], waits=1.0)
    yield Case("a command of one's own", "< 3B00 > 0020000102 < 20 > 1234 < 63C2 ",
               ["send", "00200001021234"], "= 63C2\n", status=1)
    not_it = ("the answer is not the object 5F20; "
              "if the card sends the value alone, use send 00CA5F2000\n")
    alone = "< 3B00 > 00CA5F2000 < 6C03 > 00CA5F2003 < CA4A4F459000 "
    yield Case("a value alone", alone, [*GET, *SELECT], "= 9000 4A4F45\n", status=1,
               fault=f"operation 1: {not_it}")
    yield Case("a value alone, and -k", alone + SELECT_WORDS, [*GET, *SELECT],
               "= 9000 4A4F45\n" + SELECTED, status=1, fault=f"operation 1: {not_it}",
               options=["-k"])
    yield Case("values of FF", "< 3B00 > 00DA5F2003 < DA > FFFF00 < 9000 > 00CA5F2000 "
               "< CA5F2081FCFF00FF" + "FF" * 249 + "9000 ",
               ["put", "5F20", "FFFF00", "get", "5F20"],
               "= 9000\n= 9000 5F2081FCFF00FF" + "FF" * 249 + "\n")


def cut_short():
    """A card that ends a command before it takes the data, with a status that is no refusal, has
    not carried it out. The program prints the status, and stops, with -k too."""
    cut = "operation 1: the card ended the command before it took the data\n"
    put = ["put", "5F20", "414E4E"]
    header = "< 3B00 > 00DA5F2003 "
    one_byte = "< 25 > 41 "
    long_put = ["put", "5F20", "00*600"]
    pieces = [
        ("> 10DA5F20FF ", "< DA > " + "00" * 255 + " < 9000 "),
        ("> 10DA5F20FF ", "< DA > " + "00" * 255 + " < 9000 "),
        ("> 00DA5F205A ", "< DA > " + "00" * 90 + " < 9000 "),
    ]
    for echo in (True, False):
        for status in ("9000", "9101", "6105", "6200", "63C1"):
            yield Case(f"{status} before the data, echo {echo}", f"{header}< {status} ", put,
                       f"= {status}\n", cut, 1, echo=echo)
            yield Case(f"{status} after 1 of 3 bytes, echo {echo}",
                       f"{header}{one_byte}< {status} ", put, f"= {status}\n", cut, 1, echo=echo)
        yield Case(f"9000 before an identifier, echo {echo}", "< 3B00 > 00A4040007 < 9000 ",
                   SELECT, "= 9000\n", cut, 1, echo=echo)
        yield Case(f"610B before an identifier, echo {echo}", "< 3B00 > 00A4040007 < 610B ",
                   SELECT, "= 610B\n", cut, 1, echo=echo)
        for place in range(3):
            before = "".join(head + rest for head, rest in pieces[:place])
            yield Case(f"9000 before piece {place + 1}, echo {echo}",
                       f"< 3B00 {before}{pieces[place][0]}< 9000 ", long_put, "= 9000\n", cut, 1,
                       echo=echo)
            yield Case(f"9000 within piece {place + 1}, and -k, echo {echo}",
                       f"< 3B00 {before}{pieces[place][0]}< 25 > 00 < 9000 ", [*long_put, *GET],
                       "= 9000\n", cut, 1, options=["-k"], echo=echo)
    yield Case("9000 before the data, and -k", header + "< 9000 ", [*put, *GET], "= 9000\n", cut, 1,
               options=["-k"])
    yield Case("9000 before the data, and --verify", header + "< 9000 ", put, "= 9000\n", cut, 1,
               options=["--verify"])
    for status in ("6700", "6985", "6F00", "6401"):
        yield Case(f"a refusal by {status} before the data, and -k",
                   f"{header}< {status} " + GET_WORDS, [*put, *GET], f"= {status}\n" + GOT,
                   status=1, options=["-k"])
    yield Case("63C2 after all data", "< 3B00 > 00DA5F2003 < DA > 414E4E < 63C2 " + GET_WORDS,
               [*put, *GET], "= 63C2\n" + GOT, status=1, options=["-k"])
    yield Case("a put of no bytes", "< 3B00 > 00DA5F2000 < 9000 ", ["put", "5F20", "-"], "= 9000\n")


def verified():
    """With --verify the program reads each put back before the next operation."""
    put = ["put", "5F20", "414E4E"]
    stored = "< 3B00 > 00DA5F2003 < DA > 414E4E < 9000 > 00CA5F2000 < 6C06 > 00CA5F2006 "
    differs = "operation 1: 5F20 was not stored as sent\n"
    verify = ["--verify"]
    yield Case("a put that is stored as sent", stored + "< CA5F2003414E4E9000 " + GET_WORDS,
               [*put, *GET], "= 9000\n" + GOT, options=verify)
    yield Case("a put that is not", stored + "< CA5F2003414E4F9000 ", [*put, *GET], "= 9000\n",
               differs, 1, options=verify)
    yield Case("a put that is not, and -k", stored + "< CA5F2003414E4F9000 " + GET_WORDS,
               [*put, *GET], "= 9000\n" + GOT, differs, 1, options=["-k", *verify])
    yield Case("a put that is read back by a card that is silent", stored, put, "= 9000\n",
               "operation 1: the card is silent\n", 1, options=verify, waits=1.0)
    yield Case("a put that is refused is not read back", "< 3B00 > 00DA5F2003 < 6982 " + GET_WORDS,
               [*put, *GET], "= 6982\n" + GOT, status=1, options=["-k", *verify])


def answers():
    """Answers to reset that are invalid, or ask for what this terminal does not do."""
    none = "the answer to reset is invalid: "
    for title, answer, fault, waits in (
        ("silent from the reset on", "", "the card does not answer to reset", 0.011),
        ("an answer of TS alone", "< 3B", "the answer to reset stops after byte 1", 1.0),
        ("an answer that is cut", "< 3B6500", "the answer to reset stops after byte 3", 1.0),
        ("no check byte comes", "< 3B8001", "the answer to reset stops after byte 3", 1.0),
        ("a wrong check byte", "< 3B80018F", none + "wrong check byte, at byte 4", None),
        ("a wrong check byte, T=0 first", "< 3B80800102", none + "wrong check byte, at byte 5",
         None),
        ("noise for an answer", "< 55", none + "no TS, at byte 1", None),
        ("TS of the other convention, turned", "< 3F", none + "no TS, at byte 1", None),
        ("17 characters of noise before TS", "< " + "55" * 17 + "3B00", none + "no TS, at byte 1",
         None),
        ("T out of order", "< 3B8081801F", none + "T out of order, at byte 4", None),
        ("an answer of more than 33 bytes", "< 3BF0" + "000000F0" * 7 + "000000",
         "the answer to reset is too long", None),
        ("specific mode with T=2", "< 3B90951002", "the card talks neither T=0 nor T=1", None),
        ("specific mode with implicit values", "< 3B90951010",
         "the card talks at a rate that it does not state", None),
        ("specific mode at a reserved rate", "< 3B909F1000",
         "the card talks at a reserved rate", None),
        ("specific mode at a reserved Fi", "< 3B90711000",
         "the card talks at a reserved rate", None),
        ("specific mode with T=1 at a reserved Fi", "< 3B90711001",
         "the card talks at a reserved rate", None),
        ("a reserved waiting time", "< 3B804000", "the card's waiting time is reserved", None),
        ("a reserved waiting time in specific mode", "< 3B9095500000",
         "the card's waiting time is reserved", None),
    ):
        # without a measured wait a busy machine may be late
        yield Case(title, answer, SHORT, fault=f"{fault}\n", status=1, waits=waits,
                   slack=3000 if waits is None else 600, late=LATE if waits is None else 0.6)
    for inverse in (False, True):
        ts = "3F" if inverse else "3B"
        for title, noise in (("16 characters", "FF00" * 8), ("a character", "FE"),
                             ("TS of the other convention", "C0")):
            yield Case(f"{title} of noise before TS {ts}", f"< {noise}{ts}00 " + SHORT_WORDS + DONE,
                       SHORT, f"reset\n< {ts}00\n> 0020000000\n< 9000\n= 9000\n", inverse=inverse,
                       options=["-v"])
        yield Case(f"historical bytes and a check byte, TS {ts}", f"< {ts}84800141FF00FF44 "
                   + SHORT_WORDS + DONE, SHORT, "= 9000\n", inverse=inverse)


def meanings():
    """Without operations the program prints the values of the answer to reset. The waiting time is
    960 * WI * Fi cycles at 3.5712 MHz."""
    for answer, convention, protocols, mode, rate, guard, wait, historical, fault in (
        ("3B00", "direct", "T=0", "negotiable", "9600 baud, Fi 372, Di 1", "12 etu", "1000 ms",
         "none", ""),
        ("3F1095", "inverse", "T=0", "negotiable", "111600 baud, Fi 512, Di 16", "12 etu",
         "1376 ms", "none", ""),
        ("3B84800141FF00FF44", "direct", "T=0 T=1", "negotiable", "9600 baud, Fi 372, Di 1",
         "12 etu", "1000 ms", "41FF00FF", ""),
        ("3B804002", "direct", "T=0", "negotiable", "9600 baud, Fi 372, Di 1", "12 etu", "200 ms",
         "none", ""),
        ("3B4064", "direct", "T=0", "negotiable", "9600 baud, Fi 372, Di 1", "112 etu", "1000 ms",
         "none", ""),
        ("3BC064801F0338", "direct", "T=0", "negotiable", "9600 baud, Fi 372, Di 1",
         "12 etu and 100 times Fi/Di cycles", "1000 ms", "none", ""),
        ("3B90951000", "direct", "T=0", "specific, T=0", "111600 baud, Fi 512, Di 16", "12 etu",
         "1376 ms", "none", ""),
        ("3B1071", "direct", "T=0", "negotiable", "reserved", "12 etu", "1000 ms", "none", ""),
        ("3B101F", "direct", "T=0", "negotiable", "reserved", "12 etu", "1000 ms", "none", ""),
        ("3B90951010", "direct", "T=0", "specific, T=0", "implicit", "12 etu", "1376 ms", "none",
         "the card talks at a rate that it does not state\n"),
        ("3B804000", "direct", "T=0", "negotiable", "9600 baud, Fi 372, Di 1", "12 etu", "reserved",
         "none", "the card's waiting time is reserved\n"),
        ("3B800181", "direct", "T=1", "negotiable", "9600 baud, Fi 372, Di 1", "12 etu", None,
         "none", ""),
        ("3B800282", "direct", "T=2", "negotiable", "9600 baud, Fi 372, Di 1", "12 etu", None,
         "none", "the card talks neither T=0 nor T=1\n"),
    ):
        t1 = [("IFSC", "32"), ("EDC", "LRC"), ("BWT", "1601 ms")] if "T=1" in protocols else []
        rows = [("answer", answer), ("convention", convention), ("protocols", protocols),
                ("mode", mode), ("rate", rate), ("guard time", guard), ("waiting time", wait), *t1,
                ("historical", historical)]
        output = "".join(f"{name:14}{text}\n" for name, text in rows if text)
        yield Case(f"what {answer} says", f"< {answer}", [], output, fault, 1 if fault else 0,
                   inverse=answer.startswith("3F"))
    output = "".join(f"{line}\n" for line in (
        "reset", "< 3B1095", "answer        3B1095", "convention    direct", "protocols     T=0",
        "mode          negotiable", "rate          111600 baud, Fi 512, Di 16",
        "guard time    12 etu", "waiting time  1376 ms", "historical    none",
        "pps > FF10957A", "pps < FF10957A"))
    yield Case("what an answer says, and PPS", "< 3B1095 > FF10957A < FF10957A", [], output,
               options=["-v", "--pps"])


def meanings_at_t1():
    """The same for T=1. BWT is 11 etu, and 2^BWI * 960 * 372 cycles."""
    reserved = "the card's {} is reserved\n"
    for answer, baud, ifsc, edc, bwt, fault in (
        ("3B8081210323", 9600, "32", "LRC", "101 ms", ""),
        ("3B808131FE03CD", 1200, "254", "LRC", "809 ms", ""),
        ("3B8081410141", 9600, "32", "CRC", "1601 ms", "the card's blocks use CRC, not LRC\n"),
        ("3B8081110010", 9600, "reserved", "LRC", "1601 ms", reserved.format("IFSC")),
        ("3B808121A383", 9600, "32", "LRC", "reserved", reserved.format("block waiting time")),
    ):
        yield Case(f"what {answer} says", f"< {answer}", [], f"answer        {answer}\n"
                   "convention    direct\nprotocols     T=1\nmode          negotiable\n"
                   f"rate          {baud} baud, Fi 372, Di 1\nguard time    12 etu\n"
                   f"IFSC          {ifsc}\nEDC           {edc}\nBWT           {bwt}\n"
                   "historical    none\n", fault, 1 if fault else 0, options=["--baud", baud])


def waiting():
    """Each wait lasts as long as the rules say, plus the slack, and no longer."""
    fault = "operation 1: the card is silent\n"
    # 2 * 960 * 372 cycles at 3.5712 MHz are 0.2 s, and with Fi = 512 0.275 s
    quick = "< 3B804002 "
    slow = "< 3B90954002 "
    for title, dialogue, waits in (
        ("silent after a header", quick + SHORT_WORDS, 0.2),
        ("silent after a header, with Fi 512", slow + SHORT_WORDS, 0.275),
        ("silent after a header, with WI 10", "< 3B00 " + SHORT_WORDS, 1.0),
        ("silent after SW1", quick + SHORT_WORDS + "< 90 ", 0.2),
        ("silent after a NULL", quick + SHORT_WORDS + "< 60 ", 0.2),
        ("silent after a header, with Fi reserved", "< 3B1071 " + SHORT_WORDS, 1.0),
    ):
        yield Case(title, dialogue, SHORT, fault=fault, status=1, waits=waits,
                   late=0.15 + waits / 2)
    yield Case("silent within data", quick + "> 00CA5F2003 < CA5F20", ["send", "00CA5F2003"],
               fault=fault, status=1, waits=0.2)
    yield Case("silent after a header, at 4,800 baud", quick + SHORT_WORDS, SHORT, fault=fault,
               status=1, options=["--baud", "4800"], waits=0.4)
    yield Case("a longer slack", quick + SHORT_WORDS, SHORT, fault=fault, status=1, slack=1200,
               waits=0.2)
    yield Case("the slack where nothing is said", "< 3B00 ", SHORT, echo=True, slack=None, status=1,
               fault="operation 1: there is no echo\n", waits=0.0, left="0020000000")
    yield Case("a card that takes its slack", quick + SHORT_WORDS + "~ 0.5 " + DONE, SHORT,
               "= 9000\n", slack=1500)
    yield Case("an answer that takes its time", "~ 0.2 < 3B ~ 1.2 < 80 ~ 0.5 < 4002 " + SHORT_WORDS
               + DONE, SHORT, "= 9000\n", slack=1500)
    yield Case("NULLs for ten waiting times", quick + SHORT_WORDS + "~ 0.25 < 60 " * 10 + DONE,
               SHORT, "= 9000\n", slack=1000)
    yield Case("NULLs before data", quick + "> 00CA5F2006 < 6060CA5F20034A4F4560 ~ 0.1 < 609000 ",
               ["send", "00CA5F2006"], "= 9000 5F20034A4F45\n")
    both = (SHORT_WORDS + "~ 0.7 " + DONE) * 2
    yield Case("two commands, each within the patience", "< 3B00 " + both, SHORT * 2,
               "= 9000\n" * 2, slack=3000, options=["--patience", "1"], quick=True)
    for heaps in (True, False):
        yield Case(f"NULLs with data between them, heaps {heaps}",
                   "< 3B00 > 00CA5F2006 < 60 ~ 0.7 < 60CA5F20034A4F45 ~ 0.5",
                   ["send", "00CA5F2006"], fault=f"operation 1: {TOO_LONG}", status=1, slack=3000,
                   heaps=heaps, options=["--patience", "1"])
    yield Case("a waiting time beyond the patience", "< 3B00 " + SHORT_WORDS + "~ 1.1", SHORT,
               fault=f"operation 1: {TOO_LONG}", status=1, slack=3000, options=["--patience", "1"])
    yield Case("a trace that a fault cuts", quick + SHORT_WORDS + "< 60 ", SHORT,
               "reset\n< 3B804002\n> 0020000000\n< 60\n", fault, 1, options=["-v"], waits=0.2)


def noise():
    """Unexpected bytes from the card."""
    yield Case("noise for a procedure byte", "< 3B00 " + SHORT_WORDS + "< 55 ", SHORT,
               fault="operation 1: bad procedure byte\n", status=1)
    yield Case("more data than asked for", "< 3B00 > 00CA5F2001 < CA5F2055 ",
               ["send", "00CA5F2001"], fault="operation 1: bad procedure byte\n", status=1)
    for heaps in (True, False):
        # the program does not read what follows the fault
        yield Case(f"noise among data, heaps {heaps}", "< 3B00 > 00CA5F2001 < CA5F2055 ",
                   ["send", "00CA5F2001"], "reset\n< 3B00\n> 00CA5F2001\n< CA5F20\n",
                   "operation 1: bad procedure byte\n", 1, options=["-v"], heaps=heaps)
    yield Case("a NULL among others", "< 3B00 " + SHORT_WORDS + "< 6060609000 ", SHORT,
               "reset\n< 3B00\n> 0020000000\n< 6060609000\n= 9000\n", options=["-v"], heaps=True)
    # the last of these echoes may take 2.55 s, and the slack
    yield Case("an echo of 255 characters", f"< 3B00 > 00DA5F20FF < DA > {'41' * 255} < 9000",
               ["put", "5F20", "41*255"], "= 9000\n", options=["--baud", "1200"])
    yield Case("no echo", "< 3B00 ", SHORT, fault="operation 1: there is no echo\n",
               status=1, waits=0.0, left="0020000000", late=0.4)
    yield Case("GET RESPONSE that brings nothing",
               "< 3B00 > 00CA5F2000 < 6105 > 00C0000005 < 6105 ", GET,
               fault="operation 1: stalled\n", status=1)


def early():
    """Bytes that the card sends too early: before a header, a PPS request or data are sent, with
    and without an echo."""
    behind = "a byte after the answer to reset\n"
    fault = "operation {}: unexpected byte\n"
    put = ["put", "5F20", "414E4E"]
    put_words = "> 00DA5F2003 "
    for echo in (True, False):
        def case(title, dialogue, words, *rest, echo=echo, **more):
            return Case(f"{title}, echo {echo}", dialogue, words, *rest, status=1, echo=echo,
                        heaps=True, **more)

        yield case("a status behind the answer to reset", "< 3B009000", SHORT,
                   fault=behind)
        yield case("a byte behind a checked answer to reset", "< 3B80800101FF", SHORT,
                   "reset\n< 3B80800101FF\n", behind, options=["-v"])
        yield case("a byte late behind the answer to reset", "~ 0.5 < 3B00 ~ 0.008 < 55", SHORT,
                   fault=behind, slack=5000, quick=True)
        yield case("a response behind the answer to reset", "< 3B1095FF10957A", SHORT,
                   fault=behind, options=["--pps"])
        yield case("a byte behind the PPS response", "< 3B1095 > FF10957A < FF10957A90", SHORT,
                   fault=fault.format(1), options=["--pps"])
        yield case("a status and the next answer", "< 3B00 > 00B0000000 < 90009000",
                   ["send", "00B0000000", *put], fault=fault.format(1))
        yield case("a byte behind the last answer", "< 3B00 " + SHORT_WORDS + "< 900055", SHORT,
                   "reset\n< 3B00\n> 0020000000\n< 900055\n", fault.format(1), options=["-v"])
        yield case("a NULL behind the last answer", "< 3B00 " + SHORT_WORDS + "< 900060", SHORT,
                   fault=fault.format(1))
        yield case("a status behind 61XX", "< 3B00 > 00CA5F2000 < 61039000", GET,
                   fault=fault.format(1))
        yield case("a status behind 6CXX", "< 3B00 > 00CA5F2000 < 6C069000", GET,
                   fault=fault.format(1))
        yield case("all of the rest before its time",
                   "< 3B00 > 00CA5F2000 < 6C0600CA5F2006CA5F20034A4F459000", GET,
                   fault=fault.format(1))
        yield case("INS and a status before a put's data", "< 3B00 " + put_words + "< DA9000", put,
                   "reset\n< 3B00\n> 00DA5F2003\n< DA90\n", fault.format(1), options=["-v"])
        yield case("INS twice before a put's data", "< 3B00 " + put_words + "< DADA", put,
                   fault=fault.format(1))
        yield case("INS xor FF and a status before a put's data",
                   "< 3B00 " + put_words + "< 259000", put, fault=fault.format(1))
        yield case("a status before the second of a put's data",
                   "< 3B00 " + put_words + "< 25 > 41 < 259000", put, fault=fault.format(1))
        # at 1,200 baud and with N = 254 a character takes 222 ms
        yield case("a byte within a header", "< 3B40FE > 00CA < 00", GET, fault=fault.format(1),
                   options=["--baud", "1200"], slack=5000)
        yield case("a byte within a put's data", "< 3B40FE > 00DA5F2003 < DA > 41 < 4E", put,
                   fault=fault.format(1), options=["--baud", "1200"], slack=5000)
        yield case("a byte within a PPS request", "< 3B50D1FE > FF10 < D1", SHORT,
                   fault="unexpected byte\n", options=["--baud", "1200", "--pps"], slack=5000)


def stale():
    """Without an echo the card is silent for 20 ms, or for --quiet, before each header and PPS
    request. An adapter keeps a byte for 16 ms."""
    behind = "a byte after the answer to reset\n"
    fault = "operation 2: unexpected byte\n"
    put = ["put", "5F20", "414E4E"]
    stored = "< 3B00 > 00DA5F2003 < DA > 414E4E < 9000 "
    long = ["--quiet", "300"]
    for title, dialogue, words, output, told, options in (
        ("a status 12 ms behind a put's", stored + "~ 0.012 < 9000", put * 2, "= 9000\n", fault,
         []),
        ("a status 150 ms behind a put's", stored + "~ 0.15 < 9000", put * 2, "= 9000\n", fault,
         long),
        ("a byte within the guard time", "< 3B40FE " + SHORT_WORDS + "< 9000 ~ 0.1 < 55",
         SHORT * 2, "= 9000\n", fault, ["--baud", "1200"]),
        ("a byte 150 ms behind the answer to reset", "< 3B00 ~ 0.15 < 55", SHORT, "", behind, long),
        ("a byte before PPS for a rate", "< 3B1095 ~ 0.45 < 55", SHORT, "", behind,
         ["--pps", *long]),
        ("a byte before PPS for T=1", "< 3B80800101 ~ 0.45 < 55", SHORT, "", behind,
         ["--protocol", "1", *long]),
    ):
        yield Case(title, dialogue, words, output, told, 1, options, echo=False, heaps=True,
                   slack=5000, quick=True)
    yield Case("a byte before a header", "< 3B00 ~ 0.45 < 55", SHORT, status=1, options=long,
               fault=f"operation 1: {behind}", echo=False, quick=True)


def echoes():
    """A line with an unexpected echo: a command with CLA 6X or 9X would answer itself."""
    fault = "operation 1: the line echoes\n"
    for command, words in (
        ("9000000000", ["send", "9000000000"]),
        ("6000000000", ["send", "6000000000"]),
        ("61B0000000", ["send", "61B0000000"]),
        ("00CA5F2000", GET),
        ("00A4040007", SELECT),
    ):
        for inverse, heaps in ((False, True), (True, False)):
            yield Case(f"a line that echoes {command}, inverse {inverse}",
                       f"< {'3F' if inverse else '3B'}00 > {command} < {command}", words,
                       fault=fault, status=1, echo=False, inverse=inverse, heaps=heaps)
    command = ["send", "9000000000"]
    # an echo in pieces, 50 ms and more apart
    yield Case("a line that echoes late", "< 3B00 > 9000000000 ~ 0.05 < 90 ~ 0.06 < 0000 ~ 0.06 "
               "< 0000", command, fault=fault, status=1, echo=False, heaps=True, quick=True)
    yield Case("a line that echoes the second header", "< 3B00 > 00CA5F2000 < 6C06 > 00CA5F2006 "
               "< 00CA5F2006", GET, fault=fault, status=1, echo=False, heaps=True)
    yield Case("a status that begins as its header", "< 3B00 > 9000000000 < 9000", command,
               "= 9000\n", echo=False, heaps=True)
    yield Case("a status that begins as its header, and waits", "< 3B00 > 9000000000 < 90 ~ 0.3 "
               "< 00", command, "= 9000\n", echo=False, slack=2000)
    yield Case("data that begin as their header", "< 3B00 > CACA5F2003 < CACA5F209000",
               ["send", "CACA5F2003"], "= 9000 CA5F20\n", echo=False, heaps=True)
    yield Case("an answer that is its header but for the last", "< 3B00 > CACA5F2002 < CACA5F9000",
               ["send", "CACA5F2002"], "= 9000 CA5F\n", echo=False, heaps=True)
    whole = "< 3B00 > CACA5F2004 < CACA5F2004"
    yield Case("an answer that is its header", whole, ["send", "CACA5F2004"], fault=fault, status=1,
               echo=False, heaps=True)
    yield Case("an answer that is its header, and waits", "< 3B00 > CACA5F2004 < CA ~ 0.3 "
               "< CA5F20049000", ["send", "CACA5F2004"], "= 9000 CA5F2004\n", echo=False,
               heaps=True, slack=2000, quick=True)
    yield Case("an answer that is its header, with an echo", whole + "9000",
               ["send", "CACA5F2004"], "= 9000 CA5F2004\n", heaps=True)
    yield Case("INS that is CLA, before data", "< 3B00 > DADA5F2003 < DA > 414E4E < 9000",
               ["send", "DADA5F2003414E4E"], "= 9000\n", echo=False)
    yield Case("data that are procedure bytes", "< 3B00 > 00DA5F2003 < 25 > 25 < 25 > 25 < 25 > 25 "
               "< 9000", ["put", "5F20", "252525"], "= 9000\n", echo=False)
    yield Case("a NULL that is CLA", "< 3B00 > 6020000000 < 609000", ["send", "6020000000"],
               "= 9000\n", echo=False, heaps=True)
    yield Case("silent behind the front of its header", "< 3B804002 > 9000000000 < 90", command,
               fault="operation 1: the card is silent\n", status=1, echo=False, waits=0.2)
    # the waiting time, 0.8 s, begins once the header, which takes 50 ms, was sent
    yield Case("silent after a header, without echo, at 1,200 baud", "< 3B804001 " + SHORT_WORDS,
               SHORT, fault="operation 1: the card is silent\n", status=1, echo=False, waits=0.83,
               options=["--baud", "1200"])
    # the program waits once, and not again for an echo
    yield Case("silent after a header, without echo", "< 3B00 " + SHORT_WORDS, SHORT,
               fault="operation 1: the card is silent\n", status=1, echo=False, waits=1.0,
               slack=3200, quick=True)


# The waiting time of this answer to reset is 0.2 s.
QUICK = "< 3B804002 "
ECHOES = "operation 1: the line echoes\n"


def put_words(value):
    """A put of a value, up to its data."""
    return f"{QUICK}> 00DA5F20{len(value) // 2:02X} < DA > {value} "


def echoes_of_data():
    """A line that returns data alone, though it should have no echo. The card's own bytes follow:
    soon or late, each alone or all at once."""
    for value in ("9000", "90", "DA9000", "259000", "6090", "606A", "6105", "6A80", "6C06", "9041",
                  "414E4E", "DA41", "3B8040", "00DA5F2005", "00CA5F2000", "90" * 9,
                  "9000" + "41" * 253):
        for own in ("9000", "6A80", "609000"):
            yield Case(f"a line that echoes {value[:20]} before {own}",
                       f"{put_words(value)}< {value}{own} ", ["put", "5F20", value], fault=ECHOES,
                       status=1, echo=False, heaps=True)
        yield Case(f"a line that echoes {value[:20]} long before 9000",
                   f"{put_words(value)}< {value} ~ 0.4 < 9000 ", ["put", "5F20", value],
                   fault=ECHOES, status=1, echo=False, quick=True)
    yield Case("a line that echoes data in pieces", put_words("9000") + "< 90 ~ 0.4 < 00 ~ 0.4 "
               "< 9000", ["put", "5F20", "9000"], fault=ECHOES, status=1, echo=False, quick=True)
    yield Case("a line that echoes data in pieces, no procedure byte", put_words("414E4E") + "< 41 "
               "~ 0.05 < 4E ~ 0.05 < 4E", ["put", "5F20", "414E4E"], fault=ECHOES, status=1,
               echo=False, quick=True)
    yield Case("a line that echoes an identifier", f"{QUICK}> 00A4040007 < A4 > A0000000031010 "
               "< A0000000031010610B", SELECT, fault=ECHOES, status=1, echo=False, heaps=True)
    yield Case("a line that echoes one byte of two", f"{QUICK}> 00DA5F2002 < 25 > 25 < 25 ~ 0.3 "
               "< 25", ["put", "5F20", "2525"], fault=ECHOES, status=1, echo=False, quick=True)
    yield Case("a line that echoes the first piece of a put", f"{QUICK}> 10DA5F20FF < DA > "
               + "9000" + "41" * 253 + " < 9000 ~ 0.3 < 41", ["put", "5F20", "9000" + "41" * 300],
               fault=ECHOES, status=1, echo=False, quick=True)
    yield Case("a line that echoes data after 310 NULLs", f"{QUICK}> 00DA5F2002 < {'60' * 310}DA > "
               "9000 < 9000 ~ 0.4 < 9000", ["put", "5F20", "9000"], fault=ECHOES, status=1,
               echo=False, quick=True)
    yield Case("a procedure byte that is the data, on a line that should echo",
               f"{QUICK}> 00DA5F2001 < DA > 41 < 41 ", ["put", "5F20", "41"],
               fault="operation 1: bad procedure byte\n", status=1)
    # with the card's next byte the echo is a status
    yield Case("a line that echoes 90 before INS xor FF", f"{QUICK}> 00DA5F2002 < 25 > 90 < 9025",
               ["put", "5F20", "9000"], "= 9025\n", "operation 1: the card ended the command before"
               " it took the data\n", 1, echo=False)


def no_echoes_of_data():
    """Answers of a card that begin as the data do, over a line without echo."""
    for value, own, told in (
        ("9000", "9000", "9000"),
        ("90", "9000", "9000"),
        ("900000", "9000", "9000"),
        ("DA9000", "DA9000", "9000"),
        ("60", "609000", "9000"),
        ("6060", "6060609000", "9000"),
        ("6090", "609000", "9000"),
        ("DA", "9000", "9000"),
        ("6A80", "6A80", "6A80"),
        ("6105", "6105", "6105"),
        ("9061", "9061", "9061"),
        ("00DA5F2005", "9000", "9000"),
        ("DA414E", "9000", "9000"),
        ("9041", "9000", "9000"),
    ):
        yield Case(f"no echo of {value}, {own}", f"{put_words(value)}< {own} ",
                   ["put", "5F20", value], f"= {told}\n", status=int(told != "9000"), echo=False,
                   heaps=True)
    yield Case("no echo of 9000, and a get", put_words("9000") + "< 9000 " + GET_WORDS,
               ["put", "5F20", "9000", *GET], "= 9000\n" + GOT, echo=False, slack=3000)
    yield Case("no echo of 9000, and the waiting time", put_words("9000") + "< 9000 ",
               ["put", "5F20", "9000"], "= 9000\n", echo=False, waits=0.2, late=0.5)
    yield Case("no echo of 9000, and a waiting time beyond the patience",
               "< 3B00 > 00DA5F2002 < DA > 9000 < 9000 > 00DA5F2002 < DA > 9000 < 9000 ",
               ["put", "5F20", "9000"] * 2, "= 9000\n" * 2, options=["--patience", "1"],
               echo=False)
    yield Case("no echo of 9000, and a byte before the next header",
               put_words("9000") + "< 9000 ~ 1.1 < 55", ["put", "5F20", "9000", *GET], "= 9000\n",
               "operation 2: unexpected byte\n", 1, options=["--quiet", "1000"], echo=False,
               quick=True)
    yield Case("an echo of 9000, as there should be", put_words("9000") + "< 9000 " + GET_WORDS,
               ["put", "5F20", "9000", *GET], "= 9000\n" + GOT, slack=3000)


RESET = "operation 1: the card has reset itself\n"


def resets_itself():
    """A card that resets itself sends its answer to reset again, here in place of a procedure byte,
    as data or as a status."""
    # TS, with a status in the first bytes of the answer, and at its end
    direct = "3B119000"
    inverse = "3F139000AABB"
    ends = "3B6800000073C84013009000"
    for echo in (True, False):
        for title, answer, dialogue, words in (
            ("in place of a status", ends, f"{SHORT_WORDS}< {ends} ", SHORT),
            ("after a NULL", ends, f"{SHORT_WORDS}< 60{ends} ", SHORT),
            ("by TS alone", ends, f"{SHORT_WORDS}< 3B ", SHORT),
            ("after data to the card", ends, f"> 00DA5F2001 < DA > 41 < {ends} ",
             ["put", "5F20", "41"]),
            ("after data to the card that are TS", ends, f"> 00DA5F2001 < DA > 3B < {ends} ",
             ["put", "5F20", "3B"]),
            ("after data of the card", ends, f"> 00CA5F2002 < CA4142{ends} ",
             ["send", "00CA5F2002"]),
            ("in place of INS 3B", "3B12959000", "> 003B000002 < 3B12959000 ",
             ["send", "003B000002"]),
            ("in place of INS xor FF", direct, f"> 00C4000001 < {direct} ", ["send", "00C4000001"]),
            ("inverse, in place of INS xor FF", inverse, f"> 00C0000001 < {inverse} ",
             ["send", "00C0000001"]),
            ("in place of INS xor FF, before data", "3B900000", "> 00C4000001 < 3B > 41 < 9000 ",
             ["send", "00C400000141"]),
            ("inverse, its front alone", inverse, "> 00C0000001 < 3F139000 ",
             ["send", "00C0000001"]),
            ("after some data", ends, f"> 00CA5F200C < CA4142{ends} ", ["send", "00CA5F200C"]),
            ("a byte at a time", ends, "> 00CA5F200C < CA4142 ~ 0.3 "
             + "".join(f"< {ends[at:at + 2]} ~ 0.05 " for at in range(0, 24, 2))[:-7],
             ["send", "00CA5F200C"]),
        ):
            yield Case(f"a card that resets itself {title}, echo {echo}", f"< {answer} {dialogue}",
                       [*words, *GET], fault=RESET, status=1, options=["-k"], echo=echo,
                       inverse=answer.startswith("3F"), slack=1000)
    for title, answer, dialogue, words, output in (
        ("data that are its answer to reset", ends, f"> 00CA5F200C < CA{ends}9000 ",
         ["send", "00CA5F200C"], f"= 9000 {ends}\n"),
        ("data that begin as its answer to reset, by TS", direct, "> 00C4000002 < 3B11C4229000 ",
         ["send", "00C4000002"], "= 9000 1122\n"),
        ("TS in the status before 9000", "3B900000", "> 00C2000000 < 6C3B > 00C200003B < 9000 ",
         ["send", "00C2000000"], "= 9000\n"),
        ("TS in its status", direct, f"{SHORT_WORDS}< 903B ", SHORT, "= 903B\n"),
        ("an answer to reset of two bytes", "3B00", "> 00C4000001 < 3B009000 ",
         ["send", "00C4000001"], "= 9000 00\n"),
    ):
        yield Case(f"a card without a reset, {title}", f"< {answer} {dialogue}", words, output,
                   status=int("903B" in output))
    yield Case("a card without a reset, TS of the other convention", f"< {ends} {SHORT_WORDS}< 3F ",
               SHORT, fault="operation 1: bad procedure byte\n", status=1)
    yield Case("-v shows the answer to reset again", f"< {ends} {SHORT_WORDS}< {ends} ", SHORT,
               f"reset\n< {ends}\n> 0020000000\n< {ends}\n", RESET, 1, options=["-v"])


def pps():
    """PPS requests, and responses of the card. 9,600 baud are a 372nd of the clock, and Fi 512 with
    Di 16 gives 111,600 baud."""
    answer = "< 3B1095 "
    request = "> FF10957A "
    rest = SHORT_WORDS + DONE
    own = ["--pps"]
    yield Case("PPS", answer + request + "< FF10957A " + rest, SHORT, "= 9000\n", options=own,
               baud=111600)
    yield Case("PPS, in the inverse convention", "< 3F1095 " + request + "< FF10957A " + rest,
               SHORT, "= 9000\n", options=own, baud=111600, inverse=True, heaps=True)
    yield Case("PPS, without echo", answer + request + "< FF10957A " + rest, SHORT, "= 9000\n",
               options=own, baud=111600, echo=False)
    yield Case("no PPS where it is not asked for", answer + rest, SHORT, "= 9000\n", baud=9600)
    yield Case("no PPS where there is no other rate", "< 3B1011 " + rest, SHORT, "= 9000\n",
               options=own, baud=9600)
    yield Case("no PPS where the rate is reserved", "< 3B101F " + rest, SHORT, "= 9000\n",
               options=own, baud=9600)
    yield Case("PPS that leaves the rate out", answer + request + "< FF00FF " + rest, SHORT,
               "= 9000\n", options=own, baud=9600)
    yield Case("a trace of PPS", answer + request + "< FF10957A " + rest, SHORT,
               "reset\n< 3B1095\npps > FF10957A\npps < FF10957A\n> 0020000000\n< 9000\n= 9000\n",
               options=["-v", "--pps"])
    refused = "the card does not accept what PPS asks for\n"
    for title, response in (
        ("another rate", "FF1011FE"),
        ("another protocol", "FF11957B"),
        ("a wrong PCK", "FF10957B"),
        ("PPS2 that was not asked for", "FF309500 5A".replace(" ", "")),
        ("no PPSS", "FE10957B"),
    ):
        yield Case(f"PPS that is answered by {title}", f"{answer}{request}< {response} ", SHORT,
                   fault=refused, status=1, options=own)
    mute = "the card does not answer to PPS\n"
    yield Case("PPS that is not answered", answer + request, SHORT, fault=mute, status=1,
               options=own, waits=1.0, late=0.6)
    yield Case("PPS that is answered by half", answer + request + "< FF1095 ", SHORT,
               "reset\n< 3B1095\npps > FF10957A\npps < FF1095\n", mute, 1, options=["-v", "--pps"],
               waits=1.0)
    yield Case("PPS that is answered by PPS3, and its trace", answer + request + "< FF4000BF ",
               SHORT, "reset\n< 3B1095\npps > FF10957A\npps < FF4000BF\n", refused, 1,
               options=["-v", "--pps"])
    yield Case("specific mode", "< 3B90951000 " + rest, SHORT, "= 9000\n", options=own, baud=111600)
    yield Case("specific mode at the rate of a reset", "< 3B801000 " + rest, SHORT, "= 9000\n",
               baud=9600)
    yield Case("another rate at the reset", answer + request + "< FF10957A " + rest, SHORT,
               "= 9000\n", options=["--baud", "38400", *own], baud=446400)


def gaps():
    """The least time between two characters of the terminal is 12 + N etu, and after one of the
    card 16 etu. At 1,200 baud an etu is 0.83 ms."""
    slow = ["--baud", "1200"]
    yield Case("extra guard time", "< 3B4014 " + SHORT_WORDS + DONE, SHORT, "= 9000\n",
               options=slow, slack=5000, gap=0.005)
    yield Case("no extra guard time", "< 3B40FF " + SHORT_WORDS + DONE, SHORT, "= 9000\n",
               options=slow, slack=5000)


def all_cases():
    """The cases that consist of a dialogue."""
    parts = (sessions, statuses, verified, cut_short, answers, meanings, meanings_at_t1, waiting,
             noise, early, stale, echoes, echoes_of_data, no_echoes_of_data, resets_itself, pps,
             gaps)
    return [case for part in parts for case in part()]


@contextmanager
def at_line(*options, words=SHORT, echo=True, slack=5000, **more):
    """A terminal at a line. Yields the line, the program, and the card's end for these tests."""
    with Line() as line:
        slack = [] if slack is None else ["--slack", slack]
        program = Program("gt_serial", [*slack, *options, line.name, *words], **more)
        yield line, program, Other(line, echo)


def guard_time():
    """Each character follows the one before after 12 + N etu, which is 93.3 ms with N = 100: with
    an echo and without. With T=15 that is the same, since Fi/Di cycles are an etu here. N = 255
    means the least guard time, so the pause is much shorter than 12 + 255 etu."""
    for answer in ("3B4064", "3BC064801F0338", "3BD07164801F0359"):
        for echo in (True, False):
            # four pauses, less the time that this program may take to see the first character
            gaps = gaps_after(answer, echo)
            assert 4 * 0.0933 - 0.02 <= sum(gaps), f"{answer}, echo {echo}: {gaps}"
    gaps = gaps_after("3B40FF", True)
    assert sum(gaps) < 0.5, f"N = 255: {gaps}"


def gaps_after(answer, echo):
    """Returns the pauses between the characters of a header, after this answer to reset."""
    no_echo = [] if echo else ["--no-echo"]
    with at_line("--baud", "1200", *no_echo, echo=echo) as (_, program, other):
        play(other, f"< {answer} " + SHORT_WORDS + DONE, card=True)
        look(program, program.end(), "= 9000\n", "", 0)
        return other.gaps[1:]


def puts_back(number):
    """A signal ends the program, which restores the tty. Before that the tty is set for the
    line."""
    with at_line(slack=60000) as (line, program, other):
        play(other, "< 3B00 " + SHORT_WORDS, card=True)
        assert not line.is_put_back(), "the tty was not set"
        program.kill(number)
        status = program.end()
        assert status == -number, f"status {status}: {program.faults}"
        assert line.is_put_back(), "the tty is not set as it was before"


def turn_time():
    """The terminal sends at the earliest 16 etu after the start of the card's character, so 6 etu
    after its end: 5 ms at 1,200 baud."""
    # a header takes 50 ms; a busy machine is late at some turns, so there are twelve
    with at_line("--baud", "1200", words=SHORT * 12) as (_, program, other):
        play(other, "< 3B00 " + (SHORT_WORDS + "~ 0.08 " + DONE) * 12, card=True)
        look(program, program.end(), "= 9000\n" * 12, "", 0)
        assert min(other.gaps[5::5]) >= 0.005, f"{other.gaps}"


def late_echo():
    """With N = 4 a character comes at the earliest 6 etu after the echo of the one before, however
    late that is: 5 ms at 1,200 baud. A busy machine is late at some, so there are sixteen."""
    gaps = []
    with at_line("--baud", "1200", words=SHORT * 4, echo=False) as (_, program, other):
        play(other, "< 3B4004", card=True)
        for _ in range(4):
            for byte in ("00", "20", "00", "00", "00"):
                other.take(byte)
                gaps.append(other.gaps[-1])
                time.sleep(0.03)
                other.send(byte)
            gaps[-5] = 1.0  # a header's first character follows the card's
            other.send("9000")
        look(program, program.end(), "= 9000\n" * 4, "", 0)
        assert min(gaps) >= 0.005, f"{gaps}"


def wrong_echo():
    """A wrong echo, at the first place and at a later one."""
    for echo in ("55", "00201000"):
        with at_line(echo=False) as (_, program, other):
            play(other, f"< 3B00 > 0020 < {echo}", card=True)
            look(program, program.end(), "",
                 "operation 1: the echo differs from what was sent\n", 1)


def no_echo_of_data():
    """The echo of the first of 255 characters must be there after 10 ms and the slack, at 1,200
    baud. The last takes 2.55 s."""
    words = ["put", "5F20", "41*255"]
    with at_line("--baud", "1200", words=words, slack=None) as (_, program, other):
        play(other, "< 3B00 > 00DA5F20FF < DA", card=True)
        began = time.monotonic()
        look(program, program.end(), "", "operation 1: there is no echo\n", 1)
        must_end(time.monotonic() - began, 0.15, 2.0)


def passes_over_a_signal():
    """SIGHUP does not end a program that is started with it ignored, as by nohup."""
    with at_line(before='trap "" HUP') as (_, program, other):
        play(other, "< 3B00 " + SHORT_WORDS, card=True)
        program.kill(signal.SIGHUP)
        time.sleep(0.2)
        other.send("9000")
        look(program, program.end(), "= 9000\n", "", 0)


def line_gone():
    """A line that is closed while the terminal waits for the card, and one that is closed
    before."""
    for dialogue, fault in (
        ("< 3B00 " + SHORT_WORDS, "operation 1: the line is gone\n"),
        ("< 3B", "the line is gone\n"),
    ):
        with at_line() as (_, program, other):
            play(other, dialogue, card=True)
            time.sleep(0.3)
        look(program, program.end(), "", fault, 1)


def nulls_for_ever(options, seconds, clock):
    """The program gives up a card that sends only NULLs after the time of --patience, or after 600
    s. Its clock is faster than that of these tests."""
    names = {"STANDIN_CLOCK": str(clock)}
    with at_line(*options, slack=2000, environment=names) as (_, program, other):
        play(other, "< 3B00 " + SHORT_WORDS, card=True)
        began = time.monotonic()
        while program.process.poll() is None and time.monotonic() < began + 10:
            other.send("60")
            time.sleep(0.05)
        ended = time.monotonic() - began
        look(program, program.end(), "", f"operation 1: {TOO_LONG}", 1)
        must_end(ended, seconds / clock - 0.2, seconds / clock + 0.8)


def is_quiet():
    """How long the card is silent before a header. A busy machine is late at some."""
    long = ["--no-echo", "--quiet", "100"]
    for options, least in (([], 0.0), (["--no-echo"], 0.02), (long, 0.1)):
        with at_line(*options, words=SHORT * 8, echo=not options) as (_, program, other):
            play(other, "< 3B00 " + (SHORT_WORDS + DONE) * 8, card=True)
            look(program, program.end(), "= 9000\n" * 8, "", 0)
            gap = min(other.gaps[5::5])
            assert least <= gap < least + 0.02, f"{options}: {other.gaps}"


def is_stopped():
    """A program that is stopped before a header still finds what arrived in that time."""
    options = ["--no-echo", "--quiet", "200"]
    with at_line(*options, words=SHORT * 2, echo=False) as (_, program, other):
        play(other, "< 3B00 " + SHORT_WORDS + DONE, card=True)
        time.sleep(0.05)
        program.kill(signal.SIGSTOP)
        time.sleep(0.3)
        other.send("9000")
        program.kill(signal.SIGCONT)
        look(program, program.end(), "= 9000\n", "operation 2: unexpected byte\n", 1)


def settings():
    """The settings of the tty while the terminal talks: raw, 8 bits, 2 stop bits. A pseudo terminal
    has no parity."""
    with at_line() as (line, program, other):
        play(other, "< 3B00 " + SHORT_WORDS, card=True)
        input_flags, output_flags, control, local, *_ = line.settings()
        other.send("9000")
        look(program, program.end(), "= 9000\n", "", 0)
        found = (input_flags, output_flags, local, control & 0o160)
        assert found == (0, 0, 0, 0o160), f"flags {found}"


def full_device():
    """If an answer can't be printed, also the values of one to reset, that is a fault, and the tty
    is restored."""
    for options, words, dialogue, place in (([], SHORT, SHORT_WORDS + DONE, "operation 1: "),
                                            (["-v"], SHORT, SHORT_WORDS + DONE, "operation 1: "),
                                            ([], [], "", "")):
        with open("/dev/full", "wb") as full, at_line(
                *options, words=words, slack=2000, stdout=full) as (line, program, other):
            play(other, "< 3B00 " + dialogue, card=True)
            look(program, program.end(), "", f"{place}write fault\n", 1)
            assert line.is_put_back(), "the tty is not set as it was before"


def nobody_reads():
    """If nobody reads its output, a signal ends the program, which restores the tty."""
    with Line() as line:
        reads, writes = os.pipe()
        os.close(reads)
        line.write(b"\x3b\x00")
        program = Program("gt_serial", ["-v", "--slack", "2000", line.name, *SHORT],
                          stdout=writes)
        os.close(writes)
        look(program, program.end(), "", "", -signal.SIGPIPE)
        assert line.is_put_back(), "the tty is not set as it was before"


def closed_descriptors():
    """Text for a closed descriptor is lost, and does not reach the card."""
    for closed, options, given, dialogue, fault, status in (
        ("exec 1>&-", [], SHORT, SHORT_WORDS + DONE, "operation 1: write fault\n", 1),
        ("exec 1>&-", ["-v"], SHORT, SHORT_WORDS + DONE, "operation 1: write fault\n", 1),
        ("exec 2>&-", [], SHORT, SHORT_WORDS + "< 55 ", "", 1),
        ("exec 0<&- 1>&- 2>&-", [], SHORT, SHORT_WORDS + DONE, "", 1),
        ("exec 0<&-", [], SHORT, SHORT_WORDS + DONE, "", 0),
    ):
        with at_line(*options, words=given, before=closed) as (_, program, other):
            play(other, "< 3B00 " + dialogue, card=True)
            output = "= 9000\n" if status == 0 else ""
            look(program, program.end(), output, fault, status)
            other.take_nothing(0.1)
    program = Program("gt_serial", ["-f", "-", "/dev/null"], before="exec 0<&-")
    look(program, program.end(), "", "read fault: '-': Bad file descriptor\n", 1)


def refuses(name, given, fault, status):
    """The program ends at once with these words."""
    program = Program(name, given)
    look(program, program.end(), "", fault, status)


def words():
    """Words that are refused before the tty is opened, and ttys that can't be opened."""
    for given, why in (
        ([], "no tty was provided"),
        (["-f", "y", "x", *GET], "operations are either words or in FILE"),
        (["-f", "y", "-f", "z", "x"], "'-f' cannot be used multiple times"),
        (["--walk", "x", *GET], "'--walk' is not an option"),
        (["-" * 61, "x", *GET], f"'{'-' * 60}..' is not an option"),
        (["--\x1b[2J", "x", *GET], "'--?[2J' is not an option"),
        (["--pty", "x", *GET], "'--pty' is not an option"),
        (["--baud"], "'--baud' needs a value"),
        (["--baud", "1199", "x", *GET], "'--baud' takes a number from 1200 to 1000000"),
        (["--baud", "1000001", "x", *GET], "'--baud' takes a number from 1200 to 1000000"),
        (["--baud", "9600x", "x", *GET], "'--baud' takes a number from 1200 to 1000000"),
        (["--baud", "-1", "x", *GET], "'--baud' takes a number from 1200 to 1000000"),
        (["--slack", "60001", "x", *GET], "'--slack' takes a number from 0 to 60000"),
        (["--slack", "", "x", *GET], "'--slack' takes a number from 0 to 60000"),
        (["--quiet", "19", "x", *GET], "'--quiet' takes a number from 20 to 1000"),
        (["--quiet", "1001", "x", *GET], "'--quiet' takes a number from 20 to 1000"),
        (["--patience", "0", "x", *GET], "'--patience' takes a number from 1 to 86400"),
        (["--protocol", "2", "x", *GET], "'--protocol' takes a number from 0 to 1"),
        (["--reset", "cts", "x", *GET], "'cts' is not a line for '--reset'"),
        (["--held-by", "high", "x", *GET], "'high' is neither 'on' nor 'off'"),
        (["x", "walk"], "operation 1: unknown word: 'walk'"),
        (["x", *GET, "-walk"], "'-walk' is not an option"),
        (["x", *GET, "--", "-k"], "operation 2: unknown word: '-k'"),
        (["x", "put", "5F20", "-k"], "operation 1: bad hex: '-k': a character that is not a digit"),
        (["put", "5F20", "-walk"], "'-walk' is not an option"),
        (["x", *GET, "--baud"], "'--baud' needs a value"),
        (["x", *GET, "get"], "operation 2: wrong number of words"),
        (["x", *GET, "get", "3E"], "operation 2: bad tag: '3E': neither 40 to FE without 5F, 7F, "
         "9F, BF and DF, nor one of these or FF and then 01 to 7F"),
    ):
        refuses("gt_serial", given, f"error: {why}\n{USAGE}", 2)
    for given, fault in (
        (["/nowhere/tty", *GET],
         "the tty cannot be opened: '/nowhere/tty': No such file or directory\n"),
        (["/dev/null", *GET], "'/dev/null' is not a tty\n"),
        (["-f", "/nowhere/file", "/dev/null"],
         "read fault: '/nowhere/file': No such file or directory\n"),
    ):
        refuses("gt_serial", given, fault, 1)


def tests():
    """Each test of this part: its title, and a function that raises an error if it fails."""
    yield from ((case.title, lambda case=case: tried(case)) for case in all_cases())
    yield from (
        (f"signal {number.name}", lambda number=number: puts_back(number))
        for number in (signal.SIGTERM, signal.SIGINT, signal.SIGHUP, signal.SIGQUIT)
    )
    for test in (turn_time, late_echo, wrong_echo, passes_over_a_signal, line_gone,
                 is_stopped, settings, full_device, nobody_reads, closed_descriptors, words):
        yield (f"terminal: {test.__name__}", test)
    for of in ((["--patience", "2"], 2, 1), ([], 600, 300)):
        yield f"terminal: NULLs for {of[1]} s", lambda of=of: nulls_for_ever(*of)
    for test in (guard_time, is_quiet, no_echo_of_data):
        yield f"terminal: {test.__name__}", lambda test=test: in_time(test)
