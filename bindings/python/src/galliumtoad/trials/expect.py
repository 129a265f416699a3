"""A team's own verdicts: `at command 7 status 6983: may pass`, a line each."""

import re
from pathlib import Path
from typing import Iterable

from ..mistakes import Mistake, mistakes
from .trial import BAD, MAY_PASS, Trial

LINE = re.compile(r"at (command [1-9]\d* .+?): *(.+)")
WORDS = (MAY_PASS, *BAD)


def plain(name: str) -> str:
    """The name of a trial, in any case and with any spaces."""
    return " ".join(name.split()).lower()


def accept(path: str, trials: Iterable[Trial]) -> None:
    """Reads a file: what each trial that it names may bring too. Raises `Mistake` for a line that
    is wrong, or fits no trial, or one that another line names."""
    named = {plain(it.name): it for it in trials}
    lines = mistakes(path)(Path(path).read_text)("utf-8-sig").splitlines()
    for number, text in enumerate(lines, 1):
        if not text.strip() or text.startswith("#"):
            continue
        with mistakes(f"{path}: line {number}", ValueError):
            found = LINE.fullmatch(" ".join(text.split()))
            words = [it.strip() for it in found[2].split(",")] if found else []
            if not found or not set(words) <= set(WORDS):
                raise ValueError(f"not `at command N FAULT: VERDICT`, which is one of: "
                                 f"{', '.join(WORDS)}")
            if not (trial := named.pop(plain(found[1]), None)):
                raise ValueError(f"no trial '{found[1]}', or named before")
            if MAY_PASS in words:
                trial.expected = f"{MAY_PASS}, as {Path(path).name} says"
            trial.accepted = [it for it in words if it != MAY_PASS]
