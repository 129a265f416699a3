"""How long a terminal waits, and what it leaves free between characters."""

import time
from collections import deque
from typing import Callable

KEPT = 1000  # times of each kind, the last ones


class Watch:
    """Takes what happens at a line, and when.

    >>> clock = iter([0.0, 0.0, 0.1, 0.102, 1.602])
    >>> it = Watch(clock.__next__)
    >>> it.sent(); it.came(); it.came(); it.left()
    >>> list(it.turns), list(it.gaps), it.waited
    ([0.1], [0.002], 1.5)
    """

    def __init__(self, clock: Callable[[], float] = time.monotonic) -> None:
        self.clock = clock
        self.last = clock()
        self.is_of_card = True  # the last character
        self.is_begun = False  # whether there was one since the line was opened
        self.turns = deque[float](maxlen=KEPT)  # from a character of the card to its own
        self.gaps = deque[float](maxlen=KEPT)  # between two of its own
        self.waited = 0.0  # the longest until it acted, once a fault has struck
        self.counts = True  # whether a fault has struck

    def begin(self) -> None:
        """A terminal has opened the line or reset the card."""
        self.last = self.clock()
        self.is_begun = False

    def sent(self) -> None:
        """The card sends characters."""
        self.last = self.clock()
        self.is_of_card = True
        self.is_begun = True

    def passed(self) -> float:
        """The seconds since the last character, up to an act of the terminal."""
        now = self.clock()
        time_since = round(now - self.last, 6)
        self.last = now
        if self.counts and self.is_begun:
            self.waited = max(self.waited, time_since)
        return time_since

    def came(self) -> None:
        """The terminal has sent a character."""
        since = self.passed()
        (self.turns if self.is_of_card else self.gaps).append(since)
        self.is_of_card = False
        self.is_begun = True

    def left(self) -> None:
        """The terminal has left the line, or resets the card."""
        self.passed()
        self.is_begun = False
