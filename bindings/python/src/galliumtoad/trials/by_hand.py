"""A terminal that is no program: a person starts it, and types what it showed."""

import re
import sys
from dataclasses import dataclass
from typing import Optional

from ..mistakes import Mistake
from .trial import Trial

STATUSES = {"ok": 0, "error": 1, "hung": None, "crashed": -1}
ANSWER = re.compile(r"(ok|error|hung|crashed)(?:\s+(.*))?", re.I)
HOW = ("type `ok` and what the terminal showed, or `error` and its message, or `hung`, or"
       " `crashed`:")


@dataclass(frozen=True)
class Hand:
    """A tty behind which such a terminal is: its path, its rate at a reset, and the line that holds
    the card in reset, if there is one."""

    path: str
    baud: int
    signal: str


def asked(trial: Trial) -> tuple[Optional[int], str]:
    """Asks a person what a terminal did in a trial. Returns its status, and its output. Raises
    `Mistake` at the end of the input."""
    print(f"{trial.name}: the card is in the reader. Let the terminal do its job, and then {HOW}",
          file=sys.stderr, flush=True)
    while line := sys.stdin.readline() if sys.stdin else "":
        if found := ANSWER.fullmatch(line.strip()):
            return STATUSES[found[1].lower()], found[2] or ""
        print(HOW, file=sys.stderr, flush=True)
    raise Mistake("--by-hand: the input has ended")
