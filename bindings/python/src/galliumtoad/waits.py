"""Waits for bytes of a line, a pipe or a connection."""

import os
import select
import time
from typing import Callable

LOOKS_EVERY = 0.01  # seconds


def awaits(fd: int, until: float, ends: Callable[[], bool] = lambda: False) -> bool:
    """Whether something can be read before this time. Raises `OSError` if the line `ends`."""
    while not ends():
        if time.monotonic() > until:
            return False
        if select.select([fd], [], [], LOOKS_EVERY)[0]:
            return True
    raise OSError("it has ended")


def next_byte(fd: int, until: float, ends: Callable[[], bool] = lambda: False) -> bytes:
    """Reads a byte, or none if none comes until this time. Raises `OSError` if the line ends."""
    if not awaits(fd, until, ends):
        return b""
    if byte := os.read(fd, 1):
        return byte
    raise OSError("it has ended")
