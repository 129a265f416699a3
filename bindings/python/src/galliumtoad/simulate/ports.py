"""The card's end of a line: a pseudo terminal or a tty."""

import contextlib
import fcntl
import os
import pty
import select
import struct
import sys
import termios
import time
import tty
from abc import ABC, abstractmethod
from typing import Callable, Optional

from ..waits import LOOKS_EVERY

SIGNALS = {"cts": termios.TIOCM_CTS, "dsr": termios.TIOCM_DSR, "dcd": termios.TIOCM_CAR}
MARK = b"\xFF"  # as a driver marks characters: FF 00 before one with wrong parity, FF FF for FF
# Linux: settings with any rate, as on all its processors but a few old ones.
GET_SETTINGS = 0x802C542A
PUT_SETTINGS = 0x402C542B
SETTINGS = "4I20s2I"
ANY_RATE, RATES = 0o10000, 0o10017  # of the third number


class Port(ABC):
    """What a line is made of."""

    fd: int
    has_marks = False  # whether a character may have wrong parity
    baud: int  # the rate at a reset

    def write(self, data: bytes) -> None:
        os.write(self.fd, data)

    @abstractmethod
    def write_wrong(self, byte: bytes) -> None:
        """Writes a character with wrong parity."""

    @abstractmethod
    def is_reset(self) -> bool:
        """Whether the terminal holds the card in reset, by a signal of the line if it has one."""

    @abstractmethod
    def is_left(self) -> bool:
        """Whether the terminal has closed a pseudo terminal, or resets the card."""

    @abstractmethod
    def set_rate(self, baud: int) -> None:
        """Continues at another rate."""

    @abstractmethod
    def clear(self) -> None:
        """Drops the characters that are on the line."""

    def rate_of_terminal(self) -> Optional[int]:
        """The rate that the terminal has set, if that can be seen."""
        return None

    @abstractmethod
    def close(self) -> None:
        """Closes it, once."""


class Pseudo(Port):
    """A pseudo terminal. Opening it resets the card, and it has no rate: the terminal's is what
    that has set. With `has_marks` the terminal reads it as a tty that marks wrong parity."""

    def __init__(self, baud: int, has_marks: bool = False) -> None:
        self.baud = baud
        self.has_marks = has_marks
        self.fd, theirs = pty.openpty()
        self.closed = select.poll()
        self.closed.register(self.fd, 0)
        self.clear()
        self.name = os.ttyname(theirs)
        os.close(theirs)

    def write(self, data: bytes) -> None:
        os.write(self.fd, data.replace(MARK, MARK + MARK) if self.has_marks else data)

    def write_wrong(self, byte: bytes) -> None:
        os.write(self.fd, MARK + b"\0" + byte)

    def is_reset(self) -> bool:
        return False

    def is_left(self) -> bool:
        return bool(self.closed.poll(0))

    def set_rate(self, baud: int) -> None:
        pass  # it has none

    def clear(self) -> None:
        with contextlib.suppress(termios.error):  # it has ended
            termios.tcflush(self.fd, termios.TCIOFLUSH)
            tty.setraw(self.fd)  # drops those that the terminal has not read

    def rate_of_terminal(self) -> Optional[int]:
        with contextlib.suppress(OSError):  # another system
            return int(settings_of(self.fd)[-1])
        return None

    def close(self) -> None:
        os.close(self.fd)


class Tty(Port):
    """A tty. `signal` names the line that holds the card in reset while it is on; if that is empty,
    the card was reset just now, once. Raises `OSError` if it is no tty, or another program has
    it."""

    has_marks = True

    def __init__(self, path: str, baud: int, signal: str = "", is_odd: bool = False) -> None:
        self.baud = baud
        self.bit = SIGNALS.get(signal, 0)
        self.fd = os.open(path, os.O_RDWR | os.O_NOCTTY | os.O_NONBLOCK)
        os.set_blocking(self.fd, True)
        fcntl.flock(self.fd, fcntl.LOCK_EX | fcntl.LOCK_NB)
        tty.setraw(self.fd)
        state = termios.tcgetattr(self.fd)
        state[2] |= termios.PARENB | termios.CSTOPB | (termios.PARODD if is_odd else 0)
        state[4] = state[5] = getattr(termios, f"B{baud}")
        termios.tcsetattr(self.fd, termios.TCSANOW, state)

    def write_wrong(self, byte: bytes) -> None:
        """The other parity lasts for this character alone."""
        self.turn_parity()
        os.write(self.fd, byte)
        self.turn_parity()

    def turn_parity(self) -> None:
        """Sets the other parity, once all was sent."""
        state = termios.tcgetattr(self.fd)
        state[2] ^= termios.PARODD
        termios.tcsetattr(self.fd, termios.TCSADRAIN, state)

    def is_reset(self) -> bool:
        if not self.bit:
            return False
        bits = fcntl.ioctl(self.fd, termios.TIOCMGET, bytes(4))
        return bool(int.from_bytes(bits, sys.byteorder) & self.bit)

    def is_left(self) -> bool:
        return self.is_reset()

    def set_rate(self, baud: int) -> None:
        termios.tcdrain(self.fd)
        settings = settings_of(self.fd)
        settings[2] = settings[2] & ~RATES | ANY_RATE
        settings[-2:] = [baud, baud]
        fcntl.ioctl(self.fd, PUT_SETTINGS, struct.pack(SETTINGS, *settings))

    def clear(self) -> None:
        with contextlib.suppress(termios.error):  # it has ended
            termios.tcflush(self.fd, termios.TCIOFLUSH)

    def await_release(self, ends: Callable[[], bool]) -> None:
        """Waits until the terminal has held the card in reset, and released it, or this `ends`."""
        while not self.is_reset() and not ends():
            time.sleep(LOOKS_EVERY / 10)
        self.await_end_of_reset(ends)

    def await_end_of_reset(self, ends: Callable[[], bool]) -> None:
        """Waits while the terminal holds the card in reset, or until this `ends`."""
        while self.is_reset() and not ends():
            time.sleep(LOOKS_EVERY / 10)

    def close(self) -> None:
        os.close(self.fd)


def settings_of(fd: int) -> list[int]:
    """The numbers of Linux's termios2. The last two are the rates."""
    return list(struct.unpack(SETTINGS, fcntl.ioctl(fd, GET_SETTINGS, bytes(44))))
