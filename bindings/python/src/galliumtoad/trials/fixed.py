"""The fixed job: select, put, get. It is judged by what the card holds and what the terminal
prints."""

import contextlib
import re
from pathlib import Path
from typing import Callable, Optional

from .. import Card, Error, objects
from ..faults import ECHO, GET_RESPONSE, MARKS, SIGNAL, T1
from ..mistakes import Mistake
from . import lines
from .engine import Job, Terminal, tried
from .run import Run, counted
from .trial import PRINTS, Trial

AID = bytes.fromhex("A0000000031010")
OTHER = bytes.fromhex("A0000000041010")
TAG = 0x51
VALUE = bytes(it % 251 for it in range(600))  # so that no two pieces of it are equal
SELECT = bytes([0x00, 0xA4, 0x04, 0x00, len(AID)]) + AID
JOB = bytes.fromhex("A4DADADACA")  # INS of its commands
ATRS = [bytes.fromhex("3B00"), bytes.fromhex("3B800181")]  # T=0, T=1
WORDS = {"aid": AID.hex().upper(), "tag": f"{TAG:02X}", "value": VALUE.hex().upper()}


def trials() -> list[Trial]:
    """Reads the list.

    >>> len(trials()), trials()[2].name, trials()[2].faults
    (65, 'select without answer', 'command 1, mute')"""
    text = Path(__file__).with_name("trials.txt").read_text("utf-8")
    found = re.findall(r"^([^#\n].*?)(, may miss)?\n(.+)\n(.+)\n(.+)$", text, re.M)
    return [Trial(name, faults, expected, clause, bool(misses))
            for name, misses, faults, expected, clause in found]


def named(is_own: bool, is_other: bool) -> str:
    """The words for a value that is the job's, or another one."""
    if is_own:
        return "the value"
    return "another value" if is_other else "no value"


class FixedRun(Run):
    """The card of one trial, and the data that it sent for the last GET DATA."""

    def __init__(self, trial: Trial, protocol: int) -> None:
        self.table = Card({AID: {}, OTHER: {}})
        self.brought = b""
        atr = bytes.fromhex(trial.atr) or ATRS[protocol]
        super().__init__(trial, self.table, atr, SELECT)

    def reset(self) -> None:
        """Resets the card, which then selects another application by itself, as many cards do."""
        super().reset()
        self.table.apdu(SELECT[:5] + OTHER)

    def whole(self, data: bytes, more: Optional[Callable[[], bytes]] = None) -> bytes:
        answer = super().whole(data, more)
        if data[1:2] == b"\xCA":
            self.brought = answer[:-2]
        elif data[1:2] == GET_RESPONSE and self.brought:
            self.brought += answer[:-2]
        return answer

    def values(self) -> tuple[bytes, bytes]:
        """The value on the card, and that of the object which the card sent."""
        sent = b""
        with contextlib.suppress(Error):
            sent = b"".join(it.value for it in objects(self.brought)[:1])
        return b"".join(it.value for it in self.table.entries(AID) if it.tag == TAG), sent

    def see(self, output: str) -> str:
        """A success counts only if the card holds the value and the output contains it, or if the
        output contains what the card has sent in its place."""
        printed = re.sub(r"[^0-9A-F]", "", output.upper())
        own = WORDS["value"]
        held, sent = (it.hex().upper() for it in self.values())
        rest = printed.replace(sent, "-") if own in sent else printed
        has_read = bool(sent) and sent in printed and own not in rest
        self.trial.is_true = own == held and own in printed
        if self.trial.expected.startswith(PRINTS):
            self.trial.is_true = has_read
        self.trial.is_twice = any(count > 1 for count in counted(self.commands).values())
        what = "what it read" if has_read else named(own in printed, False)
        return f"printed {what}; the card holds {named(held == own, bool(held))}"


class FixedJob(Job):
    """The job, at a line or over a reader, and those of its trials that have a word in their
    name."""

    def __init__(self, is_line: bool, protocol: int, only: str = "") -> None:
        self.is_line = is_line
        self.protocol = protocol
        self.only = only
        self.has_echo = True

    def listed(self) -> list[Trial]:
        """All its trials."""
        return trials()

    def begin(self, terminal: Terminal) -> Trial:
        clause = "A terminal that fails without a fault is not tried."
        trial = Trial("no fault", "", "succeeds", clause)
        run, text = tried(self, trial, terminal)
        if trial.verdict != "right":
            raise Mistake(f"{text[-2000:]}\n"
                          f"without a fault it is {trial.verdict}: {trial.happened}")
        ins = b"".join(it[1:2] for it in run.commands if it[1:2] != GET_RESPONSE)
        if JOB not in ins:
            raise Mistake(f"the INS of its commands are {ins.hex(' ')}, not {JOB.hex(' ')}")
        return trial

    def can_strike(self, trial: Trial) -> bool:
        """Whether the faults of a trial can happen where the terminal is."""
        if not trial.places:
            return True
        if ECHO in trial.places and not self.has_echo:
            return False
        return self.is_line and (T1 in trial.places) == bool(self.protocol)

    def trials(self) -> list[Trial]:
        found = [it for it in self.listed() if self.only in it.name and self.can_strike(it)]
        if not found:
            raise Mistake(f"no trial that can happen there has {self.only!r} in its name")
        return found

    def run(self, trial: Trial) -> FixedRun:
        return FixedRun(trial, self.protocol)


class LineJob(FixedJob):
    """The same job with the trials of a line. Each has its own answer to reset."""

    def __init__(self, protocol: int, only: str, slack: float, has_marks: bool) -> None:
        super().__init__(True, protocol, only)
        self.slack = slack
        self.has_marks = has_marks

    def listed(self) -> list[Trial]:
        return lines.trials(self.slack)

    def can_strike(self, trial: Trial) -> bool:
        if SIGNAL in [it.kind for it in trial.read()] and not self.has_echo:
            return False
        return self.has_marks or MARKS not in trial.places
