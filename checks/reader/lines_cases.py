"""The lines of a tty beside its characters, by the stand-in for a tty: presence, the reset, and the
rate. The card is played here."""

import sys
import threading
import time

from world import BRIEF, PATIENT, TESTED, TOP, Pcscd, Room, await_that, run, same

sys.path.append(str(TOP / "checks/serial"))
from tty_cases import EVEN, SET, Marking, Tty  # noqa: E402

SELECT, GET = "00A4040007A0000000031010", "00CA5F2006"
NAME = "5F20034A4F45"
EMPTY = "no card in the reader\n"
DONE = (0, f"= 9000\n= 9000 {NAME}\n")


class Played(threading.Thread):
    """A card at a tty: after each end of a reset it sends its answer, unless it is mute for the
    first `mute` of them. It answers two commands, and PPS."""

    def __init__(self, tty, answer="3B00", after="rts off", mute=0):
        super().__init__(daemon=True)
        self.tty, self.answer, self.after, self.mute = tty, answer, after, mute
        self.other, self.count, self.pps = Marking(tty.line, echo=False), 0, []
        self.is_over, self.is_pulled, self.begun = (threading.Event() for _ in range(3))
        self.start()

    def is_reset(self):
        return self.tty.noted().count(self.after) > self.count

    def run(self):
        while not self.is_over.is_set():
            if self.is_reset():
                self.count = self.tty.noted().count(self.after)
                if self.count > self.mute:
                    self.talk()
            time.sleep(0.005)

    def read(self, count):
        """The next bytes, or fewer if the card is reset."""
        data = b""
        while len(data) < count and not self.is_reset() and not self.is_over.is_set():
            data += self.tty.line.read(1, 0.01)
        return data

    def send(self, digits):
        time.sleep(0.05)  # no byte comes while the tty still sends
        if not self.is_pulled.is_set():
            self.other.send(digits)

    def talk(self):
        self.send(self.answer)
        while len(first := self.read(1)) == 1:
            if first == b"\xff":
                request = first + self.read(3)
                self.pps.append(request.hex().upper())
                self.send(request.hex())
                continue
            header = first + self.read(4)
            self.begun.set()
            if header[1:2] == b"\xa4":
                self.send("A4")
                self.read(7)
                self.send("9000")
            elif len(header) == 5:
                self.send(f"CA{NAME}9000")


class Desk(Room):
    """A pcscd whose only reader is at a tty by the stand-in, with this card."""

    def __init__(self, settings="", refuses="", inputs="", slack=PATIENT, **card):
        super().__init__()
        self.tty = self.enter_context(Tty(refuses))
        self.tty.switch(inputs)
        self.card = Played(self.tty, **card)
        self.callback(lambda: (self.card.is_over.set(), self.card.join()))
        self.settings = f"{self.tty.line.name}:echo=no,{slack}{settings}"
        self.pcscd = self.begin()

    def begin(self):
        it = Pcscd(self, [("Tty", self.settings)], TESTED, self.tty.environment)
        self.name, = it.await_readers(1)
        return it

    def session(self):
        return run(["gt_pcsc", "-r", self.name, "select", SELECT[10:], "send", GET])

    def await_session(self, wanted):
        await_that(lambda: f"{wanted}, and not {self.session()}; {self.card.is_alive()};"
                   f" {self.tty.noted()[-6:]} {self.pcscd.said()[-700:]}",
                   lambda: self.session() == wanted)


def presence(settings, empty, full):
    """A card is there while the line of the settings has that state."""
    with Desk(settings, inputs=empty) as desk:
        same(desk.session(), (1, EMPTY))
        # nothing resets a card that is not there
        same([it for it in desk.tty.noted() if it == "rts on"], [])
        desk.tty.switch(full)
        desk.await_session(DONE)
        desk.tty.switch(empty)
        desk.await_session((1, EMPTY))
        desk.tty.switch(full)
        desk.await_session(DONE)
        # a session may begin before pcscd has seen that the card is gone
        said = [it for it in desk.pcscd.said().splitlines()
                if "gt_serial_reader: " in it and not it.endswith("the card has no power")]
        same(said, [])


def always():
    with Desk() as desk:
        desk.await_session(DONE)


def pulled():
    """A card that is pulled in the middle of a command. The next program begins with a reset."""
    with Desk(",presence=cts", inputs="cts", slack=BRIEF) as desk:
        desk.await_session(DONE)
        desk.card.is_pulled.set()
        desk.card.begun.clear()
        said = []
        program = threading.Thread(target=lambda: said.append(desk.session()))
        program.start()
        await_that("a command", desk.card.begun.is_set)
        desk.tty.switch("")
        program.join()
        same(said, [(1, "operation 1: no card in the reader\n")])
        desk.pcscd.await_log("the card is silent")
        resets = desk.card.count
        desk.card.is_pulled.clear()
        desk.tty.switch("cts")
        desk.await_session(DONE)
        same(desk.card.count > resets, True, "another reset:")


def bounces():
    """A line that is off for less time than pcscd looks. A program that ends meanwhile resets the
    card, and sees that."""
    with Desk(",presence=cts", inputs="cts") as desk:
        desk.await_session(DONE)
        for pause in (0.05, 0.1, 0.15, 0.2, 0.25, 0.3):
            desk.card.begun.clear()
            program = threading.Thread(target=desk.session)
            program.start()
            await_that("a command", desk.card.begun.is_set)
            desk.tty.switch("")
            time.sleep(pause)
            desk.tty.switch("cts")
            program.join()
            desk.await_session(DONE)


def resets(settings, first, last):
    """The line of the settings resets the card, and the earlier bytes are dropped."""
    with Desk(settings, after=last) as desk:
        desk.await_session(DONE)
        noted = desk.tty.noted()
        at = noted.index(first)
        same(noted[at : at + 3], [first, "drop what has come", last])


def second_try():
    """A card that answers to the second reset alone."""
    with Desk(mute=1, slack=BRIEF) as desk:
        desk.await_session(DONE)
        same(desk.pcscd.said(), "")


def mute():
    with Desk(mute=99, slack=BRIEF) as desk:
        desk.pcscd.await_log(f"{desk.tty.line.name}: the card does not answer to reset")


def refused():
    with Desk(refuses="lines") as desk:
        desk.pcscd.await_log(f"{desk.tty.line.name}: the tty does not set its RTS: ")


def no_such_line():
    """A tty without the line of the settings shows no card, and the log says so once."""
    with Desk(",presence=dsr", refuses="lines") as desk:
        desk.pcscd.await_log(f"{desk.tty.line.name}: the tty does not return its DSR: ")
        same(desk.session(), (1, EMPTY))
        time.sleep(1)
        same(desk.pcscd.said().count("its DSR"), 1)


def rate(settings, wanted, pps):
    """By PPS, or without it, the tty has these rates in a session, and in the next one again. TA1
    is 94: Fi is 512, Di is 8."""
    with Desk(settings, answer="3B1094") as desk:
        for _ in range(2):
            desk.await_session(DONE)
            desk.pcscd.end()
            desk.pcscd = desk.begin()
        noted = desk.tty.noted()
        for at in (at for at, it in enumerate(noted) if it == desk.card.after):
            # the card answers at the rate of the settings, also after a session at another one
            same([it for it in noted[:at] if it.startswith("set ")][-1:], [EVEN], "at a reset:")
        found = [it for it in noted if it.startswith("set ") and "even" in it]
        found = [it for at, it in enumerate(found) if found[at - 1 : at] != [it]]
        same(found[: 2 * len(wanted)], [SET.format(it, "even") for it in 2 * wanted][: len(found)])
        same(len(found) >= 2 * len(wanted) - 1, True, f"{found}:")
        same(sorted(set(desk.card.pps)), pps)


def group(case):
    tests = {"presence: always": always, "a card pulled in the middle": pulled,
             "a line that bounces": bounces,
             "an answer to the second reset": second_try, "a mute card": mute,
             "a tty that sets no line": refused, "a tty without the line": no_such_line}
    for line, other in (("cts", "dsr"), ("dsr", "dcd"), ("dcd", "cts")):
        tests[f"presence by {line}"] = lambda of=(f",presence={line}", other, f"{line} {other}"): (
            presence(*of))
    tests["presence by dsr off"] = lambda: presence(",presence=dsr,present-by=off", "dsr", "cts")
    for settings, first, last in (("", "rts on", "rts off"), (",reset=dtr", "dtr on", "dtr off"),
                                  (",held-by=off", "rts off", "rts on")):
        tests[f"reset{settings}"] = lambda of=(settings, first, last): resets(*of)
    # 372 * 9600 cycles a second, an etu of 512 / 8 cycles
    tests["no PPS"] = lambda: rate("", [9600], [])
    tests["PPS"] = lambda: rate(",pps=yes", [9600, 55800, 9600, 55800], ["FF10947B"])
    tests["PPS with a clock"] = lambda: rate(",pps=yes,clock=3579545", [9600, 55930, 9600, 55930],
                                             ["FF10947B"])
    for title, test in tests.items():
        case(title, test)
    assert EVEN == SET.format(9600, "even")
