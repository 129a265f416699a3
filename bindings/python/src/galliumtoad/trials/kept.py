"""Results in a file, so that a run that ended early continues where it was."""

import fcntl
import hashlib
import inspect
import json
import os
import shutil
from pathlib import Path
from typing import Any, Iterable

from ..mistakes import Mistake, mistakes
from .trial import Trial

# What a run finds. The verdict follows from it.
FOUND = ("status", "seconds", "happened", "said", "has_struck", "is_true", "is_changed", "is_twice",
         "dialogue", "measured")


def sums(words: Iterable[str]) -> dict[str, str]:
    """The SHA-256 of each program and file among the words of a command line."""
    paths = {it: shutil.which(it) or it for it in words}
    return {it: hashlib.sha256(Path(path).read_bytes()).hexdigest()
            for it, path in paths.items() if Path(path).is_file()}


def source(it: object) -> str:
    """The file of an object's class, or nothing."""
    try:
        return inspect.getfile(type(it))
    except (OSError, TypeError):
        return ""


class Kept:
    """The file. Raises `Mistake` if another run has it."""

    def __init__(self, path: str) -> None:
        self.path = path
        self.found = dict[str, dict[str, Any]]()
        with mistakes(f"--keep {path}", OSError):
            self.file = open(path, "a+b")
            fcntl.flock(self.file, fcntl.LOCK_EX | fcntl.LOCK_NB)

    def begin(self, tried: dict[str, Any]) -> None:
        """Reads the results, if there are any. The first line is what is tried. Raises `Mistake`
        for results of anything else."""
        self.file.seek(0)
        lines = self.file.read().split(b"\n")[:-1]  # half a line does not count
        self.file.truncate(sum(len(it) + 1 for it in lines))
        if not lines:
            self.write(tried)
            return
        wrong = f"--keep {self.path}: no results of trials"
        with mistakes(wrong, ValueError, LookupError, TypeError):
            first, *others = map(json.loads, lines)
            if first != json.loads(json.dumps(tried)):
                raise Mistake(f"--keep {self.path}: results of another job, terminal or card")
            self.found = {it["faults"]: {name: it[name] for name in FOUND} for it in others}

    def write(self, it: dict[str, Any]) -> None:
        """Writes a line."""
        self.file.write(json.dumps(it).encode() + b"\n")
        self.file.flush()

    def has(self, trial: Trial) -> bool:
        """Whether a trial was tried. Then it gets what was found, and its verdict."""
        if found := self.found.get(trial.faults):
            vars(trial).update(found)
            trial.verdict = trial.judged()
        return bool(found)

    def add(self, trial: Trial) -> None:
        """Keeps what was found."""
        self.write({"faults": trial.faults, **{it: getattr(trial, it) for it in FOUND}})

    def remove(self) -> None:
        """Removes the file at the end of a run, so that a later one begins anew."""
        os.unlink(self.path)
        self.file.close()
