"""The characters of a line at the card's end: conventions, echo, times, and their faults."""

import contextlib
import time
from typing import TYPE_CHECKING, Callable, ContextManager, Optional

from .. import Atr, Edc, Level
from ..faults import ECHO, LEAVES, LINE, MARKS, NO_TIME, PARITIES, SIGNAL, T0, T1, TIMES, Time
from ..mistakes import mistakes
from ..waits import LOOKS_EVERY, next_byte
from .ports import Port
from .simulator import Simulator

if TYPE_CHECKING:
    from .keeper import Keeper

FOREVER = float("inf")
CYCLES = 372  # of the card's clock in an etu at a reset
DEFAULT_RATE = 0x11  # the code of Fi 372 and Di 1
STOPPED = 0.2  # seconds that it waits longer than CWT
MULTIPLE = 8  # how many times BWT it asks for at T=1
TURNED = bytes(int(f"{byte:08b}"[::-1], 2) ^ 0xFF for byte in range(256))  # inverse convention
HEADER = "wrong echo"
OF_DATA = "wrong echo of data"


def is_spoken(says: Atr) -> bool:
    """Whether a card with this answer to reset can talk here."""
    first = says.specific_t if says.specific else says.protocols[0]
    return first <= 1 and says.t1.edc == Edc.LRC and not says.implicit


class Line:
    """A line of characters with a card at its end."""

    keeper: Optional["Keeper"] = None
    was_left = False  # while an application worked, and the card has not been reset since

    def __init__(self, of: Simulator, port: Port, has_echo: bool = False) -> None:
        with mistakes("a line needs an answer to reset that offers T=0, or T=1 with LRC, first"):
            self.says = Atr(of.atr)
            if not is_spoken(self.says):
                raise ValueError(of.atr.hex().upper())
        self.of = of
        self.port = port
        self.faults = of.faults
        self.watch = of.watch
        self.has_echo = has_echo
        self.echo = HEADER  # the fault of the next one
        self.heard = b""  # the last character, whose echo is not sent yet
        self.ahead = b""  # characters that were read before their turn
        self.turned = TURNED if of.atr[0] == 0x3F else None
        self.ends = of.is_over.is_set
        self.tell = of.tell
        self.baud = port.baud
        self.fi = CYCLES
        of.working = self.working
        self.check()

    def check(self) -> None:
        """Raises `Mistake` for faults that can't happen here."""
        has = {LINE: True, T0: 0 in self.says.protocols, T1: 1 in self.says.protocols,
               ECHO: self.has_echo, MARKS: self.port.has_marks}
        self.faults.check([it for it in has if has[it]], "this line")

    @property
    def etu(self) -> float:
        """The seconds of an elementary time unit."""
        return 1 / self.baud

    @property
    def clock(self) -> int:
        """The card's clock, in cycles a second."""
        return CYCLES * self.port.baud

    @property
    def cwt(self) -> float:
        """How long a character of a block may take until it has stopped."""
        return STOPPED + self.says.t1.cwt_etu * self.etu

    def waits(self) -> tuple[float, float]:
        """When an application that works asks for more time: after half of WWT or BWT, and then
        after half of what it asked for."""
        if self.of.level is Level.TPDU:
            wwt = 960 * (self.says.waiting_integer or 10) * self.fi / self.clock
            return wwt / 2, wwt / 2
        bwt = (960 << self.says.t1.bwi) * CYCLES / self.clock
        return bwt / 2, MULTIPLE * bwt / 2

    def set_rate(self, fi: int, di: int) -> None:
        """Continues at the rate of Fi and Di, unless one is reserved, 0."""
        if fi and di:
            self.fi = fi
            self.baud = round(self.clock * di / fi)
            self.port.set_rate(self.baud)

    def read(self, seconds: float = FOREVER) -> bytes:
        """Returns the next character, or none if none came in this time. Raises `OSError` if the
        card is reset, or the line or the program ends."""
        self.send_echo()
        try:
            byte = next_byte(self.port.fd, time.monotonic() + seconds,
                             lambda: self.ends() or self.port.is_reset())
        except OSError:
            self.watch.left()
            raise
        if byte:
            self.watch.came()
        self.heard = byte.translate(self.turned)
        self.tell(self.heard.hex().upper(), ">")
        return self.heard

    def take(self, size: Callable[[bytes], int], seconds: float = FOREVER) -> bytes:
        """Takes as many characters as their `size`, or until none follows in this time."""
        data = self.ahead
        self.ahead = b""
        while len(data) < size(data) and (byte := self.read(seconds if data else FOREVER)):
            data += byte
        return data

    def send_echo(self) -> None:
        """Sends the echo of the last character, if there is one. A card that signals an error of
        it takes it once more."""
        if not (self.heard and self.has_echo):
            self.heard = b""
            return
        for _ in range(self.faults.edited(0, SIGNAL)):
            self.port.write_wrong(self.heard.translate(self.turned))
            self.heard = b""
            self.read()
        echo = self.faults.edited(self.heard, self.echo)
        self.heard = b""
        self.port.write(echo.translate(self.turned))

    def send(self, data: bytes, begun: int = 0) -> None:
        """Sends the echo, and then characters of the card, with the faults of their times and
        parities. The first `begun` were sent before. Raises `OSError` if the terminal leaves, and
        `Gone` if the card does."""
        self.send_echo()
        self.faults.hold()
        times = self.faults.edited((NO_TIME,) * len(data), *TIMES)
        wrong = self.faults.edited((0,) * len(data), *PARITIES)
        end = self.faults.edited(len(data), LEAVES)
        while self.faults.pauses:
            self.pause(self.faults.pauses.pop())
        run = b""  # characters without a fault go out at once
        for at in range(begun, end):
            if times[at] != NO_TIME or wrong[at]:
                self.write(run)
                run = b""
                self.pause(times[at])
                for _ in range(abs(wrong[at])):
                    self.write_wrong(data[at : at + 1])
            if wrong[at] >= 0:
                run += data[at : at + 1]
        self.write(run)
        if end < len(data):
            self.faults.leave()

    def write(self, data: bytes) -> None:
        """Writes characters of the card, unless it is reset."""
        if data and not self.port.is_reset():
            self.tell(data.hex().upper(), "<")
            self.watch.sent()
            self.port.write(data.translate(self.turned))

    def write_wrong(self, byte: bytes) -> None:
        """Writes a character with wrong parity, unless the card is reset."""
        if not self.port.is_reset():
            self.watch.sent()
            self.port.write_wrong(byte.translate(self.turned))

    def pause(self, pause: Time) -> None:
        """Waits. Raises `OSError` if the terminal leaves meanwhile."""
        until = time.monotonic() + pause.seconds(self.etu)
        while (left := until - time.monotonic()) > 0:
            if self.port.is_left():
                self.watch.left()
                raise OSError("the terminal has left")
            if self.of.is_over.wait(min(left, LOOKS_EVERY)):
                return

    def clear(self) -> None:
        """Drops what is on the line, at a reset."""
        self.heard = self.ahead = b""
        self.port.clear()

    def working(self) -> ContextManager[None]:
        """What an application works in. The echo goes out before."""
        self.send_echo()
        return self.keeper or contextlib.nullcontext()

