"""How far a run is, and how long it will take."""

import time
from typing import Callable

EVERY = 30.0  # seconds between lines
MINUTE = 60.0


class Progress:
    """Shows now and then how many trials are done, and the time that the others will take.

    >>> clock = iter([0.0, 10.0, 40.0])
    >>> it = Progress(8, print, clock.__next__)
    >>> it.step()
    >>> it.step()
    2 of 8 trials, 2 minutes left
    """

    def __init__(self, total: int, tell: Callable[[str], object],
                 clock: Callable[[], float] = time.monotonic) -> None:
        self.total = total
        self.tell = tell
        self.clock = clock
        self.done = 0
        self.begun = clock()
        self.told = self.begun

    def step(self) -> None:
        """Takes one trial that is done."""
        self.done += 1
        now = self.clock()
        if now - self.told < EVERY or self.done == self.total:
            return
        self.told = now
        left = (now - self.begun) / self.done * (self.total - self.done)
        minutes = max(round(left / MINUTE), 1)
        unit = "minutes" if minutes > 1 else "minute"
        self.tell(f"{self.done} of {self.total} trials, {minutes} {unit} left")
