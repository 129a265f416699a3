"""Tests serial_card with a terminal that these tests play at the other end of its line.

The expected results follow from the rules of the line (ISO/IEC 7816-3) and of the card, and from
the description of the program in bindings/c/README.md."""

import os
import signal
import tempfile
import time
from contextlib import contextmanager
from dataclasses import dataclass, field
from pathlib import Path

from lines import Line, Other, play, trace_of
from programs import SECONDS, TABLE, Late, Program
from terminal_cases import GET_WORDS, SELECT_WORDS, look, rate_of, refuses

USAGE = (
    "\nUsage: serial_card [OPTIONS] TTY TABLE"
    "\n       serial_card [OPTIONS] --pty TABLE\n"
    "\nFor more information, try '--help'.\n"
)
APP = "app A0000000031010\nobject 5F20 4A4F45\n"
GONE = "the line is gone\n"
NO_PPS = "the card does not answer this PPS request\n"
PUT_WORDS = "> 00DA5F2003 < DA > 414E4E < 9000 "
# The start of a dialogue that shows whether a card still answers.
ASK_WORDS = "> 00CA5F2000 < 6985 "


@dataclass
class Case:
    """A dialogue that the other end plays, and the card's expected output."""

    title: str
    dialogue: str
    answer: str = "3B00"
    options: list = field(default_factory=list)
    echo: bool = True
    inverse: bool = False
    heaps: bool = False
    fault: str = GONE
    output: str = ""
    # the card sends no character after the dialogue
    mute: bool = False
    # the rate of the tty after the dialogue
    baud: int = 9600
    # in milliseconds
    slack: int = 5000
    program: str = "serial_card"
    objects: str = APP


def table(folder, text):
    """Writes the file of a table."""
    path = Path(folder) / "card.table"
    path.write_text(text, encoding="utf-8")
    return path


@contextmanager
def at_line(*options, text="", slack=5000, name="serial_card", kinds=(), **more):
    """A card at a line, with a table of this text if it has one. Yields the line, the program, and
    the terminal's end for these tests, which echoes if the card has no option `--no-echo`."""
    with tempfile.TemporaryDirectory() as folder, Line() as line:
        path = table(folder, text) if text else TABLE
        program = Program(name, ["--slack", slack, *options, line.name, path], **more)
        yield line, program, Other(line, "--no-echo" not in options, *kinds)


def run(case):
    """Plays a case. A wrong result is an error."""
    options = case.options if case.echo else ["--no-echo", *case.options]
    more = {"slack": case.slack, "name": case.program, "kinds": (case.inverse, case.heaps)}
    with at_line(*options, text=f"atr {case.answer}\n{case.objects}", **more) as it:
        (line, program, other), played = it, ""
        try:
            play(other, case.dialogue, card=False)
            if case.mute:
                other.take_nothing(0.3)
            if other.held:
                line.write(other.held)
            if case.fault == GONE:
                assert rate_of(line) == case.baud, f"the tty runs at {rate_of(line)} baud"
            else:
                # it ends by itself, perhaps late on a busy machine
                program.process.wait(SECONDS)
        except AssertionError as why:
            played = f": {why}"
        line.close()
        look(program, program.end(), case.output, case.fault, 1, played)


def sessions():
    """The same dialogue in each convention, with and without echo, by single bytes and in heaps."""
    dialogue = SELECT_WORDS + GET_WORDS + PUT_WORDS
    for inverse in (False, True):
        ts = "3F" if inverse else "3B"
        for echo in (True, False):
            for heaps in (True, False):
                whole = f"< {ts}00 {dialogue}"
                yield Case(f"a card's session, TS {ts}, echo {echo}, heaps {heaps}", whole,
                           f"{ts}00", ["-v"], echo, inverse, heaps, output=trace_of(whole))


def pps():
    """A card takes the rate that it offers, and that of a reset. It omits the rest of a request. It
    does not answer an invalid request, or one for another protocol."""
    offers = "3B1095"
    own = 111600
    for title, request, response, baud in (
        ("its own rate", "FF10957A", "FF10957A", own),
        ("the rate of a reset", "FF1011FE", "FF1011FE", 9600),
        ("another rate", "FF109679", "FF00FF", 9600),
        ("no rate", "FF00FF", "FF00FF", 9600),
        ("its own rate, and PPS2", "FF3095015B", "FF10957A", own),
        ("PPS2 and PPS3 alone", "FF6000009F", "FF00FF", 9600),
        ("a PPS2 that is as TA1", "FF20954A", "FF00FF", 9600),
    ):
        yield Case(f"PPS for {title}", f"< {offers} > {request} < {response} {ASK_WORDS}", offers,
                   baud=baud)
    yield Case("PPS for its own rate, inverse", f"< 3F1095 > FF10957A < FF10957A {ASK_WORDS}",
               "3F1095", inverse=True, baud=own)
    trace = "reset\n< 3B1095\npps > FF10957A\npps < FF10957A\n> 00CA5F2000\n< 6985\n"
    yield Case("a card's trace of PPS", f"< {offers} > FF10957A < FF10957A {ASK_WORDS}", offers,
               ["-v"], output=trace, baud=own)
    for title, request in (
        ("a wrong PCK", "FF10957B"),
        ("T=1", "FF11957B"),
        ("a reserved bit", "FF807F"),
    ):
        yield Case(f"PPS with {title}", f"< {offers} > {request} ", offers, ["-v"], mute=True,
                   output=f"reset\n< {offers}\npps > {request}\n", fault=NO_PPS)
    yield Case("a card's line of a reset, at a pseudo terminal", f"< {offers} {ASK_WORDS}", offers,
               ["--reset", "cts"])
    yield Case("FF that is no PPS", f"< {offers} {ASK_WORDS} > FFCA5F2000 < 6E00 {ASK_WORDS}",
               offers)
    yield Case("a card in specific mode", f"< 3B90951000 > FFCA5F2000 < 6E00 {ASK_WORDS}",
               "3B90951000", baud=own)
    yield Case("PPS of a card at another rate at the reset",
               f"< {offers} > FF10957A < FF10957A {ASK_WORDS}", offers, ["--baud", "38400"],
               baud=446400)


def plans():
    """Plans, one for each TPDU in turn."""
    yield Case(
        "plans",
        "< 3B00 > 00A4040007 < 60A4 > A0000000031010 < 610B "
        "> 00C000000B < 3F6F603F09C08407A00000000310109000 > 00CA5F2006 < CA5F20034A4F459000 ",
        options=["--plan", "n", "--plan", "ono"],
    )


def long_responses():
    """With --plan a card announces up to 256 bytes, as without."""
    spelled = "DF01820258" + "41" * 600
    put = [f"> 10DADF01FF < DA > {'41' * 255} < 9000 "] * 2 + [
        f"> 00DADF015A < DA > {'41' * 90} < 9000 "]
    get = [f"> 00CADF0100 < CA{spelled[:512]}6100 ", f"> 00C0000000 < C0{spelled[512:1024]}615D ",
           f"> 00C000005D < C0{spelled[1024:]}9000 "]
    for options in ([], ["--plan", "a"] * 8):
        yield Case(f"a response of 605 bytes, {len(options)} words",
                   "".join(["< 3B00 ", SELECT_WORDS, *put, *get]), options=options)


def all_cases():
    """The cases that consist of a dialogue."""
    return [case for part in (sessions, pps, plans, long_responses) for case in part()]


def wrong_echo():
    """A card whose echo is wrong, or missing."""
    for echo, fault in (
        ("55", "the echo differs from what was sent\n"),
        ("", "there is no echo\n"),
    ):
        with at_line(slack=1000) as (line, program, other):
            other.echo = False
            other.take("3B")
            if echo:
                other.send(echo)
            look(program, program.end(), "", fault, 1)
            assert line.is_put_back(), "the tty is not set as it was before"


def is_slow():
    """A card waits for its terminal without a limit, even inside a TPDU."""
    with at_line() as (_, program, other):
        play(other, "< 3B00 > 00CA5F ~ 1.5 > 2000 < 6985", card=False)
    look(program, program.end(), "", GONE, 1)


def rate_after_response():
    """A card changes its rate once its PPS response was sent: 10 ms after the last character, at
    1,200 baud."""
    options = ["--no-echo", "--baud", "1200"]
    with at_line(*options, text=f"atr 3B1095\n{APP}") as (line, program, other):
        play(other, "< 3B1095 > FF10957A < FF10957A", card=False)
        early = rate_of(line)
        time.sleep(0.2)
        late = rate_of(line)
    look(program, program.end(), "", GONE, 1)
    assert late == 13950, f"the tty runs at {late} baud"
    if early != 1200:
        raise Late(f"the tty runs at {early} baud at once")


def puts_back():
    """A signal ends a card, which restores its tty."""
    with at_line() as (line, program, other):
        play(other, "< 3B00 > 00CA5F", card=False)
        assert not line.is_put_back(), "the tty was not set"
        program.kill(signal.SIGTERM)
        look(program, program.end(), "", "", -signal.SIGTERM)
        assert line.is_put_back(), "the tty is not set as it was before"


class Far:
    """A card that creates its own line, with a table of this text if it has one. A terminal opens
    the near end. At the end of `with` it must end with this output and these faults."""

    def __init__(self, *words, text="", output="", fault=""):
        self.folder = tempfile.TemporaryDirectory()
        self.ends = (output, fault)
        path = table(self.folder.name, text) if text else TABLE
        self.program = Program("serial_card", ["--pty", *words, path])
        self.name = self.program.first_line()

    def __enter__(self):
        return self

    def __exit__(self, kind, *_):
        self.program.kill(signal.SIGTERM)
        status = self.program.end()
        self.folder.cleanup()
        if not kind:
            look(self.program, status, *self.ends, -signal.SIGTERM)

    def opened(self):
        """Opens the near end for these tests. The caller closes it."""
        near = Line.__new__(Line)
        near.far = os.open(self.name, os.O_RDWR | os.O_NOCTTY)
        near.near = -1
        return near, Other(near, echo=False)

    def plays(self, dialogue):
        """Opens the near end, plays a dialogue, and closes it."""
        near, other = self.opened()
        play(other, dialogue, card=False)
        near.close()


def opening_is_the_reset():
    """Each opening of a card's own line is a reset. The card sends its answer, has nothing
    selected, and drops the dialogue in progress, with all bytes on the line."""
    with Far("--no-echo") as far:
        for dialogue in (
            "< 3B00 " + SELECT_WORDS + "> 00DA5F2003 < DA > 41",
            "< 3B00 " + ASK_WORDS + SELECT_WORDS + "> 00CA5F2006 < CA5F20034A4F459000",
            "< 3B00 " + SELECT_WORDS + PUT_WORDS + "> 00CA5F2006",
            "",
            "< 3B00 " + ASK_WORDS + SELECT_WORDS + "> 00CA5F2006 < CA5F2003414E4E9000",
        ):
            far.plays(dialogue)
            time.sleep(0.3)


def quick_reopening():
    """A terminal that closes the line and opens it again at once finds the card reset, even inside
    a TPDU."""
    with Far("--no-echo") as far:
        for number in range(30):
            part = "> 00CA5F20" if number % 3 == 0 else ""
            far.plays("< 3B00 " + ASK_WORDS + SELECT_WORDS + part)
        far.plays("< 3B00")


def mute_and_reopened():
    """The same holds for a card that has not answered a PPS request."""
    with Far("--no-echo") as far:
        for _ in range(5):
            near, other = far.opened()
            play(other, "< 3B00 > FF11FE00", card=False)
            assert far.program.first_fault(15) == NO_PPS
            near.close()
        far.plays("< 3B00 " + ASK_WORDS)


def gives_the_echo():
    """A card's own line returns the terminal's echo before the card's characters."""
    with Far() as far:
        far.plays("< 3B00 > 00 < 00 > CA < CA > 5F < 5F > 20 < 20 > 00 < 006985")


def is_not_read():
    """A terminal that reads nothing does not stop the card, which waits for the next terminal."""
    with Far("--no-echo", "--baud", "1000000", "--plan", "n" * 100000) as far:
        near, other = far.opened()
        play(other, "< 3B00 > 00CA5F2000", card=False)
        told = far.program.first_fault(60)
        near.close()
        time.sleep(0.3)
        far.plays("< 3B00 " + ASK_WORDS)
    assert told == "the tty takes no more characters\n", f"it tells {told!r}"


def mute_until_reset():
    """A card that does not answer a PPS request is mute until the next reset, and prints why."""
    with Far("--no-echo", fault=NO_PPS) as far:
        near, other = far.opened()
        play(other, "< 3B00 > FF11FE00", card=False)
        other.send("00CA5F2000")
        other.take_nothing(0.3)
        near.close()
        time.sleep(0.3)
        far.plays("< 3B00 " + ASK_WORDS)


def tables():
    """Invalid tables, and answers to reset that offer neither T=0 nor T=1 with an LRC."""
    none = "the table's answer to reset is invalid: "
    neither = ("the table's answer to reset does not offer T=0, or T=1 with LRC, at a rate that"
               " it states\n")
    for text, fault in (
        ("app A000\n", "line 1: bad argument\n"),
        ("# a name\nobject 5F20 41\n", "line 2: no app\n"),
        ("atr 3B00\natr 3B00\n" + APP, "line 2: bad argument\n"),
        (APP + "atr 3B1095\nobject 50 41\natr 3B00\n", "line 5: bad argument\n"),
        (APP + "object 0050 41\n", "line 3: bad argument\n"),
        (APP + "object 50 41\0 42\n", "line 3: bad argument\n"),
        (APP + "object 50 41\0 42", "line 3: bad argument\n"),
        ("atr 3B80018F\n", none + "wrong check byte, at byte 4\n"),
        ("atr 5500\n", none + "no TS, at byte 1\n"),
        ("atr 3B6500\n", none + "answer to reset cut, at byte 4\n"),
        ("atr 3B800282\n", neither),
        ("atr 3B8081410141\n", neither),
        ("atr 3B90951002\n", neither),
        ("atr 3B90951010\n", neither),
        ("atr 3B909F1000\n", neither),
    ):
        with tempfile.TemporaryDirectory() as folder:
            path = table(folder, text)
            program = Program("serial_card", ["--pty", path])
            place = f"{path}: " if fault.startswith("line") else ""
            look(program, program.end(), "", place + fault, 1)


def warns():
    """A card warns of an answer to reset that gt_serial refuses."""
    by_blocks = "> 00000500CA5F2000B0 < 0000026985EE "
    for answer, warning, words in (
        ("3B804000", "the card's waiting time is reserved", ASK_WORDS),
        ("3B9095500000", "the card's waiting time is reserved", ASK_WORDS),
        ("3B8081110010", "the card's IFSC is reserved", by_blocks),
        ("3B1071", "", ASK_WORDS),
        ("3B90951000", "", ASK_WORDS),
    ):
        with at_line("--no-echo", text=f"atr {answer}\n{APP}") as (_, program, other):
            play(other, f"< {answer} {words}", card=False)
        if warning:
            warning = f"warning: gt_serial refuses this answer to reset: {warning}\n"
        look(program, program.end(), "", warning + GONE, 1)


def closed_descriptors():
    """Text for a closed descriptor does not reach the terminal. A lost trace is a fault."""
    with at_line("-v", "--no-echo", before="exec 1>&-") as (_, program, other):
        play(other, "< 3B00 > 00CA5F2000 < 6985", card=False)
        other.take_nothing(0.1)
    look(program, program.end(), "", "write fault\n", 1)
    program = Program("serial_card", ["--pty", TABLE], before="exec 1>&-")
    look(program, program.end(), "", "write fault\n", 1)


def full_device():
    """If its trace can't be written, a card prints that after the dialogue, and ends."""
    with open("/dev/full", "wb") as full, at_line("-v", "--no-echo", stdout=full) as it:
        (_, program, other) = it
        play(other, "< 3B00 " + ASK_WORDS, card=False)
    look(program, program.end(), "", "write fault\n", 1)


def words():
    """Refused words, and files that can't be opened."""
    for given, why in (
        ([], "no tty or no table was provided"),
        (["x"], "no tty or no table was provided"),
        (["x", "y", "z"], "there are too many words"),
        (["x", "y", "--pps"], "'--pps' is not an option"),
        (["--pty"], "no tty or no table was provided"),
        (["--pty", "x", "y"], "there are too many words"),
        (["--pps", "x", "y"], "'--pps' is not an option"),
        (["--reset", "rts", "x", "y"], "'rts' is not a line for '--reset'"),
        (["--plan", "nx", "x", TABLE], "a plan has the letters n, o and a"),
        (["--plan", "n"] * 65 + ["x", TABLE], "'--plan' is used too often"),
    ):
        refuses("serial_card", given, f"error: {why}\n{USAGE}", 2)
    for given, fault in (
        (["/nowhere/tty", TABLE],
         "the tty cannot be opened: '/nowhere/tty': No such file or directory\n"),
        (["/dev/null", TABLE], "'/dev/null' is not a tty\n"),
        (["--pty", "/nowhere/table"], "/nowhere/table: No such file or directory\n"),
        (["--pty", "/nowhere/\u009b\u00e9"], "/nowhere/??\u00e9: No such file or directory\n"),
        (["--pty", "/"], "/: Is a directory\n"),
    ):
        refuses("serial_card", given, fault, 1)


def tests():
    """Each test of this part: its title, and a function that raises an error if it fails."""
    yield from ((case.title, lambda case=case: run(case)) for case in all_cases())
    for test in (wrong_echo, is_slow, rate_after_response, puts_back, opening_is_the_reset,
                 quick_reopening, mute_and_reopened, gives_the_echo, is_not_read, mute_until_reset,
                 tables, warns, closed_descriptors, full_device, words):
        yield (f"card: {test.__name__}", test)
