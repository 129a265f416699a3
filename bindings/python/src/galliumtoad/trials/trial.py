"""A trial: a fault, what a good terminal does with it, and what one did."""

import signal
from dataclasses import dataclass, field
from typing import Optional

from ..faults import ANYWHERE, Fault, read

BAD = ("unmet", "changed", "wrong", "twice", "failed", "hung", "crashed")
VERDICTS = ("right", "passed", "told", *BAD)
# What a good terminal does, as its line in a list begins, and which verdicts that brings.
PRINTS = "prints what it read"
MAY_PASS = "may pass"
DOES = {
    "reports": ["told"],
    "succeeds": ["right"],
    "succeeds or reports": ["right", "told"],
    PRINTS: ["right", "told"],
    MAY_PASS: ["passed", "told"],
}


@dataclass
class Trial:
    """A fault of a list: its lines, what a good terminal does, and the clause. Some terminals
    `may_miss` it. Its card may have an answer to reset of its own. A team may have `accepted`
    verdicts of its own. A trial of any job has the number and the title of its command. The rest is
    what a terminal made of it, `unmet` if the fault did not strike."""

    name: str
    faults: str
    expected: str
    clause: str
    may_miss: bool = False
    command: int = 0
    title: str = ""
    atr: str = ""
    accepted: list[str] = field(default_factory=list)
    verdict: str = "unmet"
    status: Optional[int] = None
    seconds: float = 0.0
    happened: str = ""
    said: str = ""
    has_struck: bool = False
    is_true: bool = False  # whether a success of it is true
    is_changed: bool = False  # whether the fault changed what the terminal prints rightly
    is_twice: bool = False  # whether the card carried out a command more often than it should
    dialogue: str = ""
    measured: str = ""  # at a line

    def read(self) -> list[Fault]:
        """Its faults. Raises `Mistake`."""
        return read(self.faults.replace("; ", "\n"), self.name)

    @property
    def places(self) -> set[str]:
        """Where its faults can happen, if not anywhere."""
        return {it.place for it in self.read()} - {ANYWHERE}

    @property
    def allowed(self) -> list[str]:
        """The verdicts of a good terminal."""
        return DOES[max((it for it in DOES if self.expected.startswith(it)), key=len)]

    @property
    def ending(self) -> str:
        """What happened, and the last line if it was no value."""
        return f"{self.happened}; said: {self.said}" if self.said else self.happened

    @property
    def is_missed(self) -> bool:
        """Whether a terminal missed it that may."""
        return self.may_miss and self.verdict == "unmet" and self.status == 0

    @property
    def is_bad(self) -> bool:
        """Whether it makes the run fail."""
        return self.verdict in BAD and self.verdict not in self.accepted and not self.is_missed

    @property
    def is_silent(self) -> bool:
        """Whether the terminal showed nothing of a fault that it should or might have seen."""
        return self.verdict == "passed" or self.verdict == "wrong" and self.is_true

    def judged(self) -> str:
        """The verdict. A terminal that was still running after the limit has no status."""
        if self.status is None:
            return "hung"
        if self.status < 0 or 128 < self.status < 128 + signal.NSIG:  # a shell adds 128 to a signal
            return "crashed"
        is_false = self.status == 0 and not self.is_true
        if is_false and not self.is_changed:
            return "wrong"
        if self.is_twice:
            return "twice"
        if self.faults and not self.has_struck:
            return "unmet"
        if self.status:
            return "told" if "told" in self.allowed else "failed"
        success = next((it for it in self.allowed if it != "told"), "wrong")
        return "changed" if is_false and success != "wrong" else success
