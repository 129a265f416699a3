"""Tests gt_serial and serial_card with a stand-in for a real tty (bindings/c/tests/standin/tty.c).
It has what a pseudo terminal lacks: settings, other lines, and parity. It notes each call that sets
something, and refuses calls on demand."""

import fcntl
import os
import shutil
import signal
import subprocess
import tempfile
import termios
import time
from pathlib import Path

from card_cases import APP, GONE, table
from lines import Line, Other, play
from programs import BUILD, TABLE, Program, in_time, must_end
from terminal_cases import DONE, LATE, SHORT, SHORT_WORDS, look

SET = "set {} baud, 8 bits, {} parity with marks, 2 stop bits"
EVEN = SET.format(9600, "even")
ODD = SET.format(9600, "odd")
# The settings of the pseudo terminal before a test.
BEFORE = "set 38400 baud, 8 bits, no parity, 1 stop bit, for a modem"
END = ["drop what has not gone", BEFORE]
RESET = ["rts on", "drop what has come", "rts off"]
PARITY = "received a character with wrong parity\n"
NONE = "the answer to reset is invalid: "


class Tty:
    """A line whose near end is a tty by the stand-in, and the stand-in's notes."""

    def __init__(self, refuses="", rates=None):
        self.line = Line()
        self.folder = tempfile.TemporaryDirectory()
        self.log, self.inputs = (Path(self.folder.name) / it for it in ("log", "inputs"))
        self.log.write_text("", encoding="utf-8")
        self.switch("")
        self.environment = {
            "STANDIN_TTY": str(self.log),
            "STANDIN_INPUTS": str(self.inputs),
            "STANDIN_REFUSES": refuses,
            **({"STANDIN_RATES": rates} if rates else {}),
        }

    def __enter__(self):
        return self

    def __exit__(self, *_):
        self.line.close()
        self.folder.cleanup()

    def switch(self, words):
        """Sets the input lines that are on, all at once."""
        new = self.inputs.with_suffix(".new")
        new.write_text(words, encoding="utf-8")
        new.replace(self.inputs)

    def noted(self):
        return self.log.read_text(encoding="utf-8").splitlines()

    def await_note(self, note, times=1, seconds=20):
        """Waits until this was noted `times` times. Returns the time when that was seen."""
        until = time.monotonic() + seconds
        while self.noted().count(note) < times:
            if time.monotonic() > until:
                raise AssertionError(f"no '{note}' in {self.noted()}")
            time.sleep(0.001)
        return time.monotonic()


class Marking(Other):
    """The other end of a tty. It writes FF twice, and FF 00 before a byte with wrong parity."""

    def send(self, digits):
        for byte in self.raw(bytes.fromhex(digits)):
            self.put(byte, False)

    def put(self, byte, is_marked):
        self.sent_at = time.monotonic()
        mark = b"\xFF"
        if is_marked:
            self.line.write(mark + bytes([0, byte]))
        elif byte == 0xFF:
            self.line.write(mark + mark)
        else:
            self.line.write(bytes([byte]))

    def sends_marked(self, digits):
        for byte in self.raw(bytes.fromhex(digits)):
            self.put(byte, True)

    def take(self, digits):
        if not self.echo:
            return super().take(digits)
        self.echo = False
        for byte in bytes.fromhex(digits):
            super().take(f"{byte:02x}")
            self.put(self.raw(bytes([byte]))[0], False)
        self.echo = True


def terminal(dialogue, noted, fault="", refuses="", options=(), output="= 9000\n", play_it=None,
             reset="rts off", inverse=False, waits=0.0, echo=True, words=SHORT, status=None,
             rates=None):
    """A terminal at a tty. The card answers after the end of the reset."""
    with Tty(refuses, rates) as tty:
        options = [*options, *([] if echo else ["--no-echo"])]
        words = ["--slack", "1200", *options, tty.line.name, *words]
        program = Program("gt_serial", words, environment=tty.environment)
        other = Marking(tty.line, echo, inverse)
        if reset:
            tty.await_note(reset)
        other.sent_at = time.monotonic()
        (play_it or (lambda it: play(it, dialogue, card=True)))(other)
        ended = program.end()
        look(program, ended, output, fault, bool(fault) if status is None else status)
        assert tty.noted() == noted, f"noted {tty.noted()}, and not {noted}"
        assert tty.line.is_put_back(), "the tty is not set as it was before"
        must_end(program.seconds, waits, other.sent_at - program.began + waits + LATE)


def resets():
    """The line of the reset holds the card, received bytes are dropped, and the line releases the
    card. Then follow the settings for the answer's convention and rate."""
    whole = f"< 3B00 {SHORT_WORDS}{DONE}"
    for options, first, last in (
        ([], "rts on", "rts off"),
        (["--reset", "dtr"], "dtr on", "dtr off"),
        (["--held-by", "off"], "rts off", "rts on"),
        (["--reset", "dtr", "--held-by", "off"], "dtr off", "dtr on"),
    ):
        yield (f"reset, {first} and {last}", lambda of=(options, first, last): terminal(
            whole, [EVEN, of[1], "drop what has come", of[2], EVEN, *END], options=of[0],
            reset=of[2]))
    yield ("no line for the reset", lambda: terminal(
        "~ 1.5 " + whole, [EVEN, EVEN, *END], options=["--reset", "none"], reset=EVEN))
    yield ("no line for the reset, and nobody does it", lambda: terminal(
        "", [EVEN, *END], "the card does not answer to reset\n", reset=EVEN, output="",
        options=["--reset", "none", "--patience", "1"], waits=0.9))
    # 40,000 cycles are 90 ms there
    slow = SET.format(1200, "even")
    yield ("an answer 60 ms after the reset, at 1,200 baud", lambda: in_time(lambda: terminal(
        f"~ 0.06 < 3B00 {SHORT_WORDS}~ 0.1 {DONE}", [slow, *RESET, slow, *END], echo=False,
        options=["--slack", "0", "--baud", "1200"])))
    yield ("silent after two resets", lambda: terminal(
        "", [EVEN, *RESET, *RESET, *END], "the card does not answer to reset\n", output="",
        waits=2.4))
    yield ("no second reset by hand", lambda: terminal(
        "< 3B80018F", [EVEN, *END], NONE + "wrong check byte, at byte 4\n", output="",
        options=["--reset", "none"], reset=EVEN))


def second_resets():
    """A second reset after an invalid answer, and the fault if that fails too."""
    well = f"< 3B00 {SHORT_WORDS}{DONE}"
    wrong = NONE + "wrong check byte, at byte 4\n"
    for title, first, second, fault in (
        ("silence", "", well, ""),
        ("a wrong check byte", "< 3B80018F", well, ""),
        ("noise", "< " + "55" * 17, well, ""),
        ("an answer that is cut", "< 3B65", well, ""),
        ("a byte behind the answer", "< 3B0055", well, ""),
        ("TS behind the answer", "< 3B003B", well, ""),
        ("a wrong check byte, and silence", "< 3B80018F", "", wrong),
        ("silence, and a wrong check byte", "", "< 3B80018F", wrong),
        ("two faults", "< 3B80018F", "< 3B8081801F", NONE + "T out of order, at byte 4\n"),
    ):
        yield f"a second reset after {title}", lambda of=(first, second, fault): twice(*of)


def twice(first, second, fault):
    with Tty() as tty:
        program = Program("gt_serial", ["--slack", "1200", tty.line.name, *SHORT],
                          environment=tty.environment)
        for times, dialogue in enumerate((first, second), 1):
            tty.await_note("rts off", times)
            play(Marking(tty.line), dialogue, card=True)
        look(program, program.end(), "" if fault else "= 9000\n", fault, 1 if fault else 0)
        noted = [EVEN, *RESET, *RESET, *([] if fault else [EVEN]), *END]
        assert tty.noted() == noted, f"noted {tty.noted()}, and not {noted}"


def gone_at_reset():
    """There is no second reset after the line is gone."""
    with Tty() as tty:
        program = Program("gt_serial", ["--slack", "5000", tty.line.name, *SHORT],
                          environment=tty.environment)
        tty.await_note("rts off")
        tty.line.close()
        look(program, program.end(), "", GONE, 1)
        assert tty.noted().count("rts on") == 1, f"noted {tty.noted()}"


def is_held():
    """The card is held in reset for about 50 ms, and at least 400 cycles."""
    with Tty() as tty:
        program = Program("gt_serial", ["--slack", "5000", tty.line.name, *SHORT],
                          environment=tty.environment)
        tty.line.write(b"\x55\x55")
        began = tty.await_note("rts on")
        held = tty.await_note("rts off") - began
        play(Marking(tty.line), f"< 3B00 {SHORT_WORDS}{DONE}", card=True)
        look(program, program.end(), "= 9000\n", "", 0)
        assert 0.03 <= held < 3, f"held for {held:.3f} s"


def rates():
    """The rates and parities that follow from the answer and PPS."""
    reset = [EVEN, *RESET]
    pps = "< 3B1095 > FF10957A < FF10957A "
    yield ("a tty's settings after PPS", lambda: terminal(
        pps + SHORT_WORDS + DONE,
        [*reset, SET.format(111600, "even"), EVEN, SET.format(111600, "even"), *END],
        options=["--pps"]))
    yield ("a tty's settings in specific mode", lambda: terminal(
        "< 3B90951000 " + SHORT_WORDS + DONE, [*reset, SET.format(111600, "even"), *END]))
    yield ("a tty's settings at 38,400 baud", lambda: terminal(
        "< 3B00 " + SHORT_WORDS + DONE, [SET.format(38400, "even"), *reset[1:],
        SET.format(38400, "even"), *END], options=["--baud", "38400"]))
    # a 50th of 9,600 baud is 192
    for number, is_well in ((9408, True), (9792, True), (9407, False), (9793, False),
                            (8640, False), (10560, False)):
        for of in (f"{number} {number}", f"{number} 9600", f"9600 {number}"):
            well = f"< 3B00 {SHORT_WORDS}{DONE}", [*reset, EVEN, *END]
            off = "", [EVEN, *END], "the tty does not run at 9600 baud\n"
            more = {} if is_well else {"output": "", "reset": ""}
            yield (f"a tty that runs at {of} baud", lambda of=of, case=well if is_well else off,
                   more=more: terminal(*case, rates=of, **more))
    yield ("a tty that does not run so fast", lambda: terminal(
        "< 3B1095", [*reset, SET.format(111600, "even"), *END],
        "the tty does not run at 111600 baud\n", "fast", ["--pps"], ""))


def refusals():
    """Settings and lines that a tty refuses, with or without an error."""
    reset = [EVEN, *RESET]
    form = "the tty does not take 8 bits, even parity and 2 stop bits\n"
    early = [EVEN, *END]
    for refuses, noted, fault in (
        ("get", [], "the tty does not return its settings: Input/output error\n"),
        ("set", early, "the tty refuses its settings: Invalid argument\n"),
        ("bits", early, form),
        ("stop", early, form),
        ("parity", early, form),
        ("baud", early, "the tty does not run at 9600 baud\n"),
        ("lines", [EVEN, "rts on", *END], "the tty does not set its RTS: Input/output error\n"),
        ("on", [EVEN, "rts on", *END], "the tty does not set its RTS: Input/output error\n"),
        ("off", [*reset, *END], "the tty does not set its RTS: Input/output error\n"),
        ("stuck", [*reset, *END], "the tty does not set its RTS\n"),
    ):
        yield (f"a tty that refuses: {refuses}", lambda of=(noted, fault, refuses): terminal(
            "", *of, output="", reset=""))
    yield ("a tty that has no DTR", lambda: terminal(
        "", [EVEN, "dtr on", *END], "the tty does not set its DTR: Input/output error\n", "on",
        ["--reset", "dtr"], "", reset=""))
    yield ("a tty that refuses to be set again", lambda: terminal(
        "< 3B00", [*reset, EVEN, *END], "the tty refuses its settings: Invalid argument\n",
        "set_again", output=""))
    yield ("a tty that takes no characters", lambda: terminal(
        "< 3B00", [*reset, EVEN, *END], "operation 1: the tty takes no more characters\n", "write",
        output="", waits=1.2))
    yield ("a tty that takes four characters at once", lambda: terminal(
        "< 3B00 > 00DA5F2007 < DA > 41424344454647 < 9000", [*reset, EVEN, *END], refuses="many",
        words=["put", "5F20", "41424344454647"]))
    yield ("a tty without lines, where none is needed", lambda: terminal(
        f"< 3B00 {SHORT_WORDS}{DONE}", [EVEN, EVEN, *END], refuses="lines",
        options=["--reset", "none"], reset=EVEN))


def inverse_odd():
    """In the inverse convention the tty has odd parity from the end of the answer on. Until then
    each character of the card has another parity than the setting."""
    noted = [EVEN, *RESET, ODD, *END]
    terminal(f"! 3F02FF00 {SHORT_WORDS}{DONE}", noted, inverse=True)
    terminal("! 3F00", noted, inverse=True, refuses="odd", output="",
             fault="the tty does not take 8 bits, odd parity and 2 stop bits\n")


def parities():
    """Characters with wrong parity. The bytes of a late mark are more than 20 ms apart."""
    reset = [EVEN, *RESET]
    begun = f"< 3B00 {SHORT_WORDS}"
    for title, dialogue in (
        ("of TS", "! 3B"),
        ("of TS, inverse", "< 3F"),
        ("of T0", "< 3B ! 00"),
        ("of a status", begun + "! 90"),
        ("of FF", begun + "! FF"),
        ("within a heap, of its second character", begun + "# 90FF0000"),
        ("by a mark that is late by the last byte", begun + "# FF00 ~ 0.15 # 90 ~ 0.15 # 00"),
        ("by a mark in a heap that is late by the last byte", begun + "# 90FF00 ~ 0.15 # 00"),
        ("by a mark that is late by two bytes", begun + "# FF ~ 0.15 # 0090 ~ 0.15 # 00"),
        ("of T0, inverse", "! 3F < 00"),
    ):
        noted, place = ([EVEN], "operation 1: ") if begun in dialogue else (RESET, "")
        yield (f"a wrong parity {title}", lambda of=(dialogue, noted, place): terminal(
            of[0], [*reset, *of[1], *END], of[2] + PARITY, output="", inverse="3F" in of[0]))

    first = "< 3B8081210323 > 00C101FE3E ~ 0.05 "
    command = ["send", "00B0000000"]
    opened = first + "< 00E101FE1E > 00000500B0000000B5 ~ 0.05 "
    for dialogue in (first + "# FF00", first + "# 00E101FE1EFF00", opened + "# 0000026D006FFF00"):
        yield (f"a mark of a wrong parity that is cut at T=1, {dialogue}", lambda of=dialogue:
               terminal(of, [*reset, EVEN, *END], "operation 1: too many tries without progress: "
                        "the card may have carried out the command\n", output="", echo=False,
                        words=command))
    for title, dialogue in (
        ("the first byte", f"{first}! 00 < E101FE1E {opened[15:]}< 0000026D006F"),
        ("a response", f"{opened}! 00 < 00026D006F > 00810081 ~ 0.05 < 0000026D006F"),
    ):
        yield (f"a wrong parity of {title} at T=1", lambda of=dialogue: terminal(
            of, [*reset, EVEN, *END], output="= 6D00\n", echo=False, words=["-k", *command],
            status=1))

    def marked_echo(other):
        play(other, "< 3B00", card=True)
        other.echo = False
        other.take("00")
        other.sends_marked("00")

    yield ("an echo with a wrong parity", lambda: terminal(
        "", [*reset, EVEN, *END], output="", play_it=marked_echo,
        fault="operation 1: the echo differs from what was sent\n"))
    for refuses in ("", "halves"):
        yield (f"FF is no mark, {refuses}", lambda of=refuses: ff_is_no_mark(of))


def without_echo():
    """Without an echo a card is too early if it sends before the terminal's last byte can have been
    sent: at 1,200 baud a character takes 10 ms. An echo is still detected."""
    slow = ["--baud", "1200"]
    even = SET.format(1200, "even")
    noted = [even, *RESET, even, *END]
    tried = [even, *RESET, SET.format(13950, "even"), even, *END]
    fault = "operation 1: unexpected byte\n"
    put = ["send", "0020000103414E4E"]
    for title, dialogue, words, told in (
        ("a status, in time", "~ 0.1 < 9000", SHORT, ""),
        ("a status within its header", "< 9000", SHORT, fault),
        ("a NULL within its header", "< 60", SHORT, fault),
        ("a status at the end of its header", "~ 0.02 < 9000", SHORT, fault),
        ("an echo", "< 0020000000", SHORT, "operation 1: the line echoes\n"),
        ("a status within data", "> 0020000103 ~ 0.1 < 20 > 414E4E < 9000", put, fault),
        ("a status behind data, in time", "> 0020000103 ~ 0.1 < 20 > 414E4E ~ 0.1 < 9000", put, ""),
        # 255 characters take 2.55 s, a 32nd of that is 80 ms, and a tenth 255 ms
        ("a status within the last tenth of data", f"> 00200001FF ~ 0.1 < 20 > {'41' * 255} ~ 2.42 "
         "< 9000", ["send", "00200001FF" + "41" * 255], fault),
        ("a status within the last 32nd of data", f"> 00200001FF ~ 0.1 < 20 > {'41' * 255} ~ 2.5 "
         "< 9000", ["send", "00200001FF" + "41" * 255], ""),
    ):
        whole = f"< 3B00 {SHORT_WORDS if words == SHORT else ''}{dialogue}"
        more = {"options": slow, "output": "" if told else "= 9000\n", "echo": False,
                "words": words}
        yield (f"without echo: {title}", lambda of=(whole, noted, told), more=more: in_time(
            lambda: terminal(*of, **more)))
    yield ("without echo: T=1, an echo", lambda: in_time(lambda: terminal(
        "< 3B8081210323 > 00C101FE3E < 00C101FE3E", noted, "operation 1: the line echoes\n",
        options=slow, output="", echo=False)))
    # -v shows the byte that was too early
    shown = [*slow, "-v"]
    yield ("without echo: a NULL within its header, shown", lambda: in_time(lambda: terminal(
        f"< 3B00 {SHORT_WORDS}< 60", noted, fault, options=shown, echo=False,
        output="reset\n< 3B00\n> 0020000000\n< 60\n")))
    yield ("without echo: T=1, an answer within the block", lambda: in_time(lambda: terminal(
        "< 3B8081210323 > 00C101FE3E < 00E101FE1E", noted, fault, options=shown, echo=False,
        output="reset\n< 3B8081210323\n> 00C101FE3E\n< 00\n")))
    yield ("without echo: a PPS response within the request", lambda: in_time(lambda: terminal(
        "< 3B1095 > FF10957A < FF10957A", tried, "unexpected byte\n", echo=False,
        options=[*shown, "--pps"], output="reset\n< 3B1095\npps > FF10957A\npps < FF\n")))


def ff_is_no_mark(refuses):
    """FF in an answer to reset, as a procedure byte, in data, and as an echo."""
    with Tty(refuses) as tty:
        words = ["send", "00CA5F2002", "put", "51", "FF00FFFF"]
        words = ["--slack", "5000", tty.line.name, *words]
        program = Program("gt_serial", words, environment=tty.environment)
        other = Marking(tty.line)
        tty.await_note("rts off")
        play(other, "< 3B41FFFF > 00CA5F2002 < CAFFFF9000 > 00DA005104 < DA > FF00FFFF < 9000",
             card=True)
        look(program, program.end(), "= 9000 FFFF\n= 9000\n", "", 0)


def is_locked():
    """A second program at a tty prints which process has it, and disturbs nothing."""
    with Line() as line:
        words = ["--slack", "5000", line.name, *SHORT]
        first = Program("gt_serial", words)
        play(Other(line), "< 3B00 " + SHORT_WORDS, card=True)
        set_to = line.settings()
        for name, others in (("gt_serial", words), ("serial_card", [line.name, TABLE])):
            second = Program(name, others)
            look(second, second.end(), "", f"process {first.process.pid} has '{line.name}'\n", 1)
        assert line.settings() == set_to, "the second program has set the tty"
        line.write(b"\x90\x00")
        look(first, first.end(), "= 9000\n", "", 0)
        # a lock by another kind of program counts, too
        fcntl.lockf(line.near, fcntl.LOCK_SH)
        third = Program("gt_serial", words)
        look(third, third.end(), "", f"process {os.getpid()} has '{line.name}'\n", 1)
        fcntl.lockf(line.near, fcntl.LOCK_UN)
        fourth = Program("gt_serial", words)
        play(Other(line), f"< 3B00 {SHORT_WORDS}{DONE}", card=True)
        look(fourth, fourth.end(), "= 9000\n", "", 0)


def keeps_others_out():
    """While the program runs only root can open the tty, and a second program prints which process
    has it. Afterwards others can open it, even if a signal has ended the program. A pseudo terminal
    would stay closed after SIGKILL, so it can be opened all the time."""
    with Tty() as tty:
        Path(tty.folder.name).chmod(0o755)
        copy = shutil.copy(BUILD / "gt_serial", tty.folder.name)
        user = 65534 if os.geteuid() == 0 else None
        Path(tty.line.name).chmod(0o666)
        for number in (None, signal.SIGTERM, signal.SIGKILL):
            words = ["--slack", "5000", tty.line.name, *SHORT]
            is_pseudo = number == signal.SIGKILL
            first = Program("gt_serial", words,
                            environment=() if is_pseudo else tty.environment)
            if not is_pseudo:
                tty.await_note("rts off")
            play(Marking(tty.line), "< 3B00 " + SHORT_WORDS, card=True)
            second = Program(copy, words, user=user)
            has = f"process {first.process.pid} has '{tty.line.name}'\n"
            look(second, second.end(), "", has, 1)
            opened = subprocess.run(["sh", "-c", f": < {tty.line.name}"], user=user, cwd="/",
                                    check=False, stderr=subprocess.DEVNULL)
            assert (opened.returncode == 0) == is_pseudo, f"opened: {opened.returncode}"
            if number:
                first.kill(number)
            else:
                tty.line.write(b"\x90\x00")
            first.end()
            # drops an echo that the program could not read before the signal
            termios.tcflush(tty.line.near, termios.TCIOFLUSH)
            third = Program(copy, ["--slack", "0", *words[2:]], user=user)
            look(third, third.end(), "", "the card does not answer to reset\n", 1)
            tty.log.write_text("", encoding="utf-8")


def card(play_it, options=(), answer="3B00", refuses="", fault=GONE, inverse=False, noted=None):
    """A card at a tty. `play_it` plays the other end, and switches the input lines."""
    with Tty(refuses) as tty:
        path = table(tty.folder.name, f"atr {answer}\n{APP}")
        words = ["--slack", "5000", *options, tty.line.name, path]
        program = Program("serial_card", words, environment=tty.environment)
        play_it(tty, Marking(tty.line, inverse=inverse))
        tty.line.close()
        look(program, program.end(), "", fault, 1)
        assert noted is None or tty.noted()[: len(noted)] == noted, f"noted {tty.noted()}"


def pulse(tty, held, released="", seconds=0.4):
    tty.switch(held)
    time.sleep(seconds)
    tty.switch(released)


def card_resets():
    """A line of the terminal resets the card, in either state, and other lines do not."""
    ask = "> 00CA5F2000 < 6985"

    def play_it(held, released, others):
        def session(tty, other):
            tty.await_note(EVEN)
            other.take_nothing(0.2)
            pulse(tty, held, released)
            play(other, f"< 3B00 {ask} > 00CA", card=False)
            tty.switch(others)
            time.sleep(0.3)
            play(other, "> 5F2000 < 6985 > 00CA5F", card=False)
            tty.switch(held)
            other.take_nothing(0.4)
            tty.switch(released)
            play(other, f"< 3B00 {ask}", card=False)
        return session

    for option, held, released, others in (
        (["--reset", "cts"], "cts", "", "dsr dcd"),
        (["--reset", "dsr"], "dsr", "cts", "cts dcd"),
        (["--reset", "dcd"], "dcd dsr", "", "cts dsr"),
        (["--reset", "cts", "--held-by", "off"], "", "cts", "cts dsr dcd"),
    ):
        # with the last the card is held in reset when it starts
        yield (f"a card that is reset by {' '.join(option)}",
               lambda of=(held, released, others), option=option: card(play_it(*of), option))

    # as long as gt_serial holds it; a busy machine may be late
    def quick(tty, other):
        tty.await_note(EVEN)
        other.take_nothing(0.2)
        # a card that looks seldom sees one by luck
        for _ in range(3):
            pulse(tty, "cts", seconds=0.05)
            play(other, f"< 3B00 {ask}", card=False)

    yield ("a card that is reset for 50 ms",
           lambda: in_time(lambda: card(quick, ["--reset", "cts"])))


def card_settings():
    """A card's tty: parity by the convention, and refused settings."""
    ask = "> 00CA5F2000 < 6985"

    def asked(ts):
        return lambda tty, other: play(other, f"< {ts}00 {ask}", card=False)

    yield ("a card's tty, direct", lambda: card(asked("3B"), noted=[EVEN, EVEN]))
    yield ("a card's tty, inverse", lambda: card(asked("3F"), answer="3F00", inverse=True,
                                                 noted=[EVEN, ODD]))
    yield ("a card's tty that takes no odd parity", lambda: card(
        lambda tty, other: time.sleep(0.5), answer="3F00", inverse=True, refuses="odd",
        fault="the tty does not take 8 bits, odd parity and 2 stop bits\n"))
    yield ("a card's tty that does not tell its lines", lambda: card(
        lambda tty, other: time.sleep(0.5), ["--reset", "dsr"], refuses="lines",
        fault="the tty does not return its DSR: Inappropriate ioctl for device\n"))

    def spoilt(second):
        def session(tty, other):
            tty.await_note(EVEN)
            pulse(tty, "cts")
            play(other, f"< 3B00 > 00 {second}", card=False)
            other.take_nothing(0.3)
            pulse(tty, "cts")
            play(other, f"< 3B00 {ask}", card=False)
        return session

    for title, second in (("wrong parity", "! CA > 5F2000"),
                          ("mark that is late", "# FF00 ~ 0.15 # CA")):
        yield (f"a character to a card with a {title}", lambda second=second: card(
            spoilt(second), ["--reset", "cts"], fault=PARITY + GONE))

    def at_t1(place, pause):
        get = "00000500CA5F2000B0"

        def session(_, other):
            play(other, "< 3B8081210323 > 00C101FE3E < 00E101FE1E", card=False)
            other.send(get[:2 * place])
            other.sends_marked(get[2 * place:2 * place + 2])
            time.sleep(pause)
            other.send(get[2 * place + 2:])
            # R says that the EDC or a parity was wrong
            play(other, f"< 00810081 > {get} < 0000026985EE", card=False)
        return session

    def never_stops(tty, other):
        play(other, "< 3B8081210323 > 00C101FE3E < 00E101FE1E", card=False)
        other.send("0000")
        other.sends_marked("05")
        for _ in range(10000):
            if BEFORE in tty.noted():
                break
            other.send("00")
            time.sleep(0.0005)

    yield ("a card at T=1, a wrong parity and bytes without end", lambda: card(
        never_stops, answer="3B8081210323", fault="the other end does not stop sending\n"))
    # a pause is longer than BGT, 2.3 ms, and shorter than CWT
    for place, pause in ((0, 0), (2, 0), (8, 0), (0, 0.05), (2, 0.05)):
        yield (f"a card at T=1, a wrong parity of byte {place}, pause {pause}",
               lambda of=(place, pause): card(at_t1(*of), ["--slack", "300"],
                                              answer="3B8081210323"))


def two_ports(name):
    """Two ports of one program, in the way of Linux or in that of other systems."""
    program = Program(name, [])
    status = program.end()
    assert not status, f"status {status}: {program.output}{program.faults}"


def tests():
    """Each test of this part: its title, and a function that raises an error if it fails."""
    for name in ("ports", "ports_by_termios"):
        yield (f"two {name}", lambda name=name: two_ports(name))
    for part in (resets, second_resets, rates, refusals, parities, without_echo, card_resets,
                 card_settings):
        yield from part()
    for test in (is_held, gone_at_reset, inverse_odd, is_locked, keeps_others_out):
        yield (f"tty: {test.__name__}", lambda test=test: in_time(test))
