"""A card's end of a line in a thread of its own: the line is two queues, and no time passes."""

import threading
from queue import SimpleQueue

from galliumtoad.simulate.line import Line
from galliumtoad.simulate.ports import Port
from galliumtoad.simulate.session import Session
from galliumtoad.simulate.t0 import T0
from galliumtoad.simulate.t1 import T1

SECONDS = 60
RESET = None  # in place of a character


class Memory(Port):
    """A port that notes what the card sends."""

    fd = -1
    baud = 9600

    def __init__(self, has_marks=False):
        self.has_marks = has_marks
        self.sent = b""
        self.noted = []  # with pauses and wrong parities
        self.rates = []
        self.rate = None

    def write(self, data):
        self.sent += data
        if self.noted and self.noted[-1][0] == "<":
            data = bytes.fromhex(self.noted.pop()[2:]) + data
        self.noted.append(f"< {data.hex().upper()}")

    def write_wrong(self, byte):
        self.noted.append(f"! {byte.hex().upper()}")

    def is_reset(self):
        return False

    def is_left(self):
        return False

    def set_rate(self, baud):
        self.rates.append(baud)

    def rate_of_terminal(self):
        return self.rate

    def clear(self):
        self.sent = b""

    def close(self):
        pass


def at_t0(line):
    T0(line).run()


def at_t1(line):
    T1(line).run()


class End(Line):
    """What `talks` does at such a line."""

    def __init__(self, it, talks, has_echo=False, has_marks=False):
        super().__init__(it, Memory(has_marks), has_echo)
        self.fault = None
        self.blocks = []
        self.asks = SimpleQueue()
        self.characters = SimpleQueue()
        threading.Thread(target=self.go, args=[talks], daemon=True).start()
        self.asks.get(timeout=SECONDS)

    def go(self, talks):
        try:
            talks(self)
        except Exception as fault:
            self.fault = fault
        self.asks.put("ended")

    def read(self, seconds=0.0):
        self.send_echo()
        self.asks.put("reads")
        character = self.characters.get()
        if character is RESET:
            raise OSError("reset")
        self.heard = character
        return character

    def pause(self, pause):
        self.port.noted.append(f"~ {pause.seconds():g}")

    def come(self):
        """What the card has sent."""
        sent, self.port.sent = self.port.sent, b""
        return sent

    def take_in(self, byte):
        """Takes a character, or none if a block stopped, and returns what the card sends."""
        self.characters.put(byte)
        self.asks.get(timeout=SECONDS)
        if self.fault:
            raise self.fault
        return self.come()

    def pass_block(self, data, waits=0):
        """Takes a block, and returns what the card sends, which `blocks` keeps."""
        if not data:
            return b""
        self.blocks.append(b"".join(self.take_in(bytes([it])) for it in data))
        return self.blocks[-1]

    def note(self):
        """What the line has carried since the last call, with pauses (`~`, seconds) and characters
        of wrong parity (`!`)."""
        noted, self.port.noted = self.port.noted, []
        return " ".join(it for it in noted if it != "~ 0")


def from_reset(line):
    """The answer to reset, PPS, and then a protocol, again after each reset."""
    session = Session(line)
    while True:
        session.prepare()
        try:
            session.run()
        except OSError:
            line.clear()
