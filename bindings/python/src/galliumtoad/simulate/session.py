"""A card at a line from one reset to the next: its answer, PPS, and then a protocol."""

import contextlib
from typing import Optional

from .. import Pps, PpsError
from ..faults import BYTES, DATA, Gone
from .line import CYCLES, DEFAULT_RATE, Line
from .t0 import T0
from .t1 import T1

PPSS = b"\xFF"
RATE_OFF = 50  # a rate may be off by a 50th
CHANGES = (*DATA, *BYTES, "then HEX")


def pps_size(request: bytes) -> int:
    """How many characters a PPS request has (ISO/IEC 7816-3, 9.1).

    >>> pps_size(bytes.fromhex("FF")), pps_size(bytes.fromhex("FF11"))
    (2, 4)
    """
    return 3 + bin(request[1] & 0x70).count("1") if request[1:] else 2


class Session:
    """What a card does from a reset on."""

    def __init__(self, line: Line) -> None:
        self.line = line
        self.faults = line.faults

    def prepare(self) -> None:
        """Chooses the faults of the next reset, before it happens."""
        self.faults.begin_reset()
        if self.faults.edited_at_once(False, "early"):
            self.line.write(self.line.of.atr)

    def run(self) -> None:
        """Resets the card, and talks, after PPS if the terminal asks for that. An invalid request
        makes it mute (ISO/IEC 7816-3, 9.1 and 9.3). Raises `OSError` at the next reset, or as
        `read`."""
        line = self.line
        line.was_left = False
        line.of.reset()
        line.watch.begin()
        with contextlib.suppress(Gone, PpsError):
            self.answer()
            protocol = self.agreed()
            talk = T1(line).run if protocol else T0(line).run
            talk()
        while True:  # a card that is gone
            line.read()

    def answer(self) -> None:
        """Sends the answer to reset. Raises `Gone`."""
        line = self.line
        if line.baud != line.port.baud:
            line.set_rate(CYCLES, 1)
        if self.faults.gone:
            raise self.faults.gone
        line.send(self.faults.edited_at_once(line.of.atr, *CHANGES))
        self.faults.end_event()
        if line.says.specific:
            self.change_rate(line.port.baud)

    def agreed(self) -> int:
        """Takes a PPS request, if one comes. Returns T. Raises `Gone` for a protocol that the card
        does not talk."""
        line = self.line
        if line.says.specific:
            return line.says.specific_t
        line.ahead = line.read()
        if line.ahead != PPSS:
            return line.says.protocols[0]
        request = line.take(pps_size)
        protocol = request[1] & 15
        rate = self.rate_in(request, protocol)
        if protocol not in line.says.protocols:
            raise Gone
        self.faults.begin_pps()
        response = request if rate else Pps(protocol).request
        sent = self.faults.edited_at_once(response, *CHANGES)
        before = line.port.rate_of_terminal()  # it may change its rate at the last character
        line.send(sent)
        self.faults.end_event()
        if self.rate_in(sent[: pps_size(sent)], protocol) == line.says.rate_code != DEFAULT_RATE:
            self.change_rate(before)
        return protocol

    def rate_in(self, request: bytes, protocol: int) -> int:
        """The code of Fi and Di that a request asks for and the card accepts, or 0: that of a
        reset, or its own. Raises `PpsError`."""
        for rate in (DEFAULT_RATE, self.line.says.rate_code):
            if Pps(protocol, rate).is_agreed(request) and request[1] & 0x10:
                return rate
        return 0

    def change_rate(self, before: Optional[int]) -> None:
        """Continues at the rate of the answer to reset. A terminal that has not changed its own,
        which was this, hears nothing, as if each character was garbled. Raises `Gone`."""
        line = self.line
        line.set_rate(line.says.fi, line.says.di)
        line.ahead = line.read()
        now = line.port.rate_of_terminal()
        if before is None or now is None:
            return
        wanted = before * line.baud / line.port.baud
        if abs(now - wanted) > wanted / RATE_OFF:
            raise Gone
