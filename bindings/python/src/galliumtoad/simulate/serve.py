"""Serves a card at a pseudo terminal or a tty."""

import contextlib
import time
from typing import Callable

from ..faults import DEFAULT_BAUD
from ..waits import LOOKS_EVERY
from .keeper import keep
from .line import Line
from .ports import Pseudo, Tty
from .session import Session
from .simulator import Simulator

INVERSE = 0x3F  # TS of the inverse convention, whose parity is odd for a UART


def serve_tty(of: Simulator, path: str, baud: int, signal: str) -> None:
    """Serves a tty until the program or the line ends. `signal` names the line that holds the card
    in reset while it is on; if that is empty, the card was reset just now, once."""
    with contextlib.closing(Tty(path, baud, signal, of.atr[0] == INVERSE)) as port:
        line = Line(of, port)
        session = Session(line)
        while not of.is_over.is_set():
            keep(line)
            if signal and not line.was_left:
                port.await_release(of.is_over.is_set)
            port.await_end_of_reset(of.is_over.is_set)
            session.prepare()
            line.clear()
            serve_once(session, bool(signal))


def serve_once(session: Session, has_reset: bool) -> None:
    """Serves a card from a reset to the next one, or if the line has no reset, to its end."""
    try:
        session.run()
    except OSError:
        if not has_reset and not session.line.ends():
            raise


def serve_pty(of: Simulator, has_echo: bool, tell: Callable[[str], object],
              baud: int = DEFAULT_BAUD, has_marks: bool = False) -> None:
    """Serves a pseudo terminal, whose name `tell` gets, until `is_over`. Opening it resets,
    unless it is open, or was closed in the same moment."""
    port = Pseudo(baud, has_marks)
    line = Line(of, port, has_echo)
    session = Session(line)
    keep(line)  # a later one might inherit files of a terminal that starts now
    session.prepare()
    tell(port.name)
    while not of.is_over.is_set():
        while port.is_left() and not of.is_over.is_set():
            time.sleep(LOOKS_EVERY)
        with contextlib.suppress(OSError):
            keep(line)
            session.run()
        line.clear()
        session.prepare()
    port.close()
