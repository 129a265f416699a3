"""The faults of any job: at which commands each can strike, and what a good terminal does."""

import re
from dataclasses import dataclass
from pathlib import Path

from ..faults import DATA, KINDS, Fault, read
from .dialogue import Step
from .run import only_reads
from .trial import MAY_PASS, Trial

STATUS = "status SW"
STATUSES = (STATUS, "refuse SW")
SUCCESS = ("90", "61", "62", "63", "6C")  # SW1


@dataclass(frozen=True)
class Row:
    """A block of the list: the words of a fault, for which commands it is, what a good terminal
    does, and the clause."""

    words: str
    which: str
    expected: str
    clause: str
    fault: Fault

    @property
    def text(self) -> str:
        """Its lines in a list."""
        name = f"{self.words}, {self.which}" if self.which else self.words
        who = "It" if self.expected.startswith(MAY_PASS) else "A good terminal"
        return f"{name}\n{who} {self.expected}.\n{self.clause}"

    def is_for(self, step: Step) -> bool:
        """Whether the fault is for a command, and changes anything there."""
        kind = self.fault.kind
        values = self.fault.values
        if kind in DATA and KINDS[kind][1](step.data, *values) == step.data:
            return False
        if kind in STATUSES and values[0] == step.status:
            return False
        return self.is_meant(step)

    def is_meant(self, step: Step) -> bool:
        """Whether the words after the fault say so."""
        if found := re.fullmatch("(not )?at (.+)", self.which):
            return (f"{step.command[1]:02X}" in found[2]) == (found[1] is None)
        return {
            "": True,
            "with data": step.has_data,
            "with a response": bool(step.data),
            "with data or a response": step.has_data or bool(step.data),
            "that write": not only_reads(step.command),
        }[self.which]

    def trial(self, step: Step) -> Trial:
        """The trial of the fault at a command. A changed status is that of the last part. Instead
        of an error another error may pass: the terminal copes with one there."""
        place = f"command {step.number}"
        parts = len(step.answers)
        when = f"{place} part {parts}" if self.fault.kind == STATUS and parts > 1 else place
        status = step.status.hex().upper()
        expected = self.expected
        if self.fault.kind in STATUSES and not status.startswith(SUCCESS):
            expected = f"{MAY_PASS}, as {status} does without a fault"
        return Trial(f"{place} {self.words}", f"{when}, {self.words}", expected, self.clause,
                     command=step.number, title=step.title)


def rows() -> list[Row]:
    """Reads the list.

    >>> rows()[0].words, rows()[0].expected
    ('refuse 6A82', 'reports it')
    """
    listed = Path(__file__).with_name("any.txt").read_text("utf-8")
    found = re.findall(r"^([^#\n,]+)(?:, (.+))?\n(.+)\n(.+)$", listed, re.M)
    return [Row(words, which, expected, clause, read(f"command 1, {words}")[0])
            for words, which, expected, clause in found]
