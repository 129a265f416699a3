"""What was measured of a terminal at a line, as words."""

from collections.abc import Iterable
from statistics import median

from ..simulate.watch import Watch

LEGEND = ("measured: the longest wait of the terminal after the fault (ISO/IEC 7816-3, 10.2: WWT;"
          " 11.4.3: CWT, BWT), and its usual time before a character of its own: after one of the"
          " card (16 etu at T=0: EMV 4.3, Book 1, 9.2.2.1; 22 etu at T=1: 11.4.3), and after one of"
          " its own (12 etu: 7.2). A character takes a pseudo terminal no time: add 10 etu to the"
          " first. Short times need a real line")


def in_etu(times: Iterable[float], baud: int) -> str:
    """The usual one of some times, in milliseconds and etu.

    >>> in_etu([0.00208, 0.5, 0.00104], 9600)
    '2.1 ms (20 etu)'
    """
    usual = median(times)
    return f"{1000 * usual:.1f} ms ({usual * baud:.0f} etu)"


def words(watch: Watch, baud: int) -> str:
    """The times of a terminal.

    >>> it = Watch(iter([0.0, 0.0, 0.1, 0.1, 1.6]).__next__)
    >>> it.sent(); it.came(); it.came(); it.left()
    >>> words(it, 9600)
    'waited 1.50 s; 100.0 ms (960 etu) after the card, 0.0 ms (0 etu) after its own'
    """
    parts = []
    if watch.turns:
        parts.append(f"{in_etu(watch.turns, baud)} after the card")
    if watch.gaps:
        parts.append(f"{in_etu(watch.gaps, baud)} after its own")
    waited = f"waited {watch.waited:.2f} s"
    return f"{waited}; {', '.join(parts)}" if parts else waited
