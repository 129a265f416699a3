"""The dialogue of a run: its exchanges, its commands, and what `trace_explain` says of it."""

import json
import shutil
from itertools import groupby
from subprocess import run
from typing import NamedTuple

from .run import without_lengths

EXPLAINS = "trace_explain"
SUMMARY = "\nsummary\n"  # its block at the end, which counts commands
SHOWN = 150  # lines at the start and at the end of a long one
RESET, FAULT = "reset", "fault: "  # lines without bytes


class Exchange(NamedTuple):
    """What passed between terminal and card: the number of the command, as faults count it, its
    bytes, and the answer, empty if the card was gone."""

    number: int
    command: bytes
    answer: bytes


class Step(NamedTuple):
    """A command with its repetition after 6CXX and what fetches its response: its number, its
    title, its bytes and the answers."""

    number: int
    title: str
    command: bytes
    answers: list[bytes]

    @property
    def status(self) -> bytes:
        """The last one."""
        return self.answers[-1][-2:]

    @property
    def data(self) -> bytes:
        """The first data of its response."""
        return next((it[:-2] for it in self.answers if it[2:]), b"")

    @property
    def has_data(self) -> bool:
        """Whether two bytes or more go to the card."""
        return len(without_lengths(self.command)) > 5


class Dialogue:
    """The exchanges of a run, and its lines for `trace_explain --tpdu`."""

    def __init__(self) -> None:
        self.exchanges = list[Exchange]()
        self.lines = list[str]()

    def reset(self) -> None:
        """Takes a reset. Several without an exchange between count as one."""
        if self.lines[-1:] != [RESET]:
            self.lines.append(RESET)

    def note(self, text: str) -> None:
        """Takes a line that is no bytes."""
        self.lines.append(text)

    def take(self, it: Exchange) -> None:
        """Takes an exchange."""
        self.exchanges.append(it)
        self.lines.append(f"> {it.command.hex().upper()}")
        if it.answer:
            self.lines.append(f"< {it.answer.hex().upper()}")

    def explained(self, *words: str) -> str:
        """The text of `trace_explain`, or nothing if it is not on the PATH, or takes nothing of
        this for a whole command."""
        if not (name := shutil.which(EXPLAINS)):
            return ""
        lines = "\n".join(self.lines)
        done = run([name, "--tpdu", *words], input=lines, capture_output=True, text=True)
        return "" if done.returncode else done.stdout

    def text(self) -> str:
        """The dialogue for people, without the middle of a long one."""
        said = f"\n{self.explained()}".partition(SUMMARY)[0].lstrip("\n")
        lines = said.splitlines() if said else self.lines
        if (count := len(lines) - 2 * SHOWN) > 0:
            lines = [*lines[:SHOWN], f".. {count} lines", *lines[-SHOWN:]]
        return "\n".join(lines)

    def titles(self) -> list[str]:
        """The name of each exchange, as VERIFY."""
        lines = [json.loads(line) for line in self.explained("--json").splitlines()]
        found = [it["instruction"] for it in lines if it["type"] == "tpdu"]
        if len(found) != len(self.exchanges):
            found = [None] * len(self.exchanges)
        return [name or f"INS {it.command[1:2].hex().upper()}"
                for name, it in zip(found, self.exchanges)]

    def responses(self) -> list[tuple[bytes, bytes]]:
        """The header and data of each command, with all data of its response."""
        groups = [list(group) for _, group in groupby(self.exchanges, key=lambda it: it.number)]
        return [(without_lengths(it[0].command), b"".join(part.answer[:-2] for part in it))
                for it in groups]

    def statuses(self) -> set[bytes]:
        """Those that the card sent."""
        return {it.answer[-2:] for it in self.exchanges if it.answer}

    def steps(self) -> list[Step]:
        """Its commands."""
        found = list[Step]()
        for (number, command, answer), title in zip(self.exchanges, self.titles()):
            if not found or found[-1].number != number:
                found.append(Step(number, title, command, []))
            found[-1].answers.append(answer)
        return found
