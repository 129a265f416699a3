"""The trials of a line: what a test laboratory does with characters and blocks."""

import re
from pathlib import Path

from .trial import Trial

NO_FAULT = "-"  # the answer to reset is all
BEYOND = "{beyond}"  # seconds after a limit at which no terminal still waits
MORE = 1.0  # seconds after the terminal's own slack


def trials(slack: float) -> list[Trial]:
    """Reads the list, for a terminal that adds `slack` seconds to each wait of the rules.

    >>> it = next(it for it in trials(0.2) if it.name == "answer that is too late")
    >>> it.atr, it.faults
    ('3B00', 'every reset, delay 108etu+1.2s')
    """
    text = Path(__file__).with_name("lines.txt").read_text("utf-8")
    text = text.replace(BEYOND, f"{slack + MORE:g}s")
    found = re.findall(r"^([^#\n].*?)(, may miss)?\n(.+)\n(.+)\n(.+)\n(.+)$", text, re.M)
    return [Trial(name, "" if faults == NO_FAULT else faults, expected, clause, bool(misses),
                  atr=atr)
            for name, misses, atr, faults, expected, clause in found]
