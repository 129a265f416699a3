"""The program: lets a terminal do a job with cards that misbehave, and judges it."""

import argparse
import shlex
import sys
from pathlib import Path
from typing import Any, Optional, Sequence, Union

from ..mistakes import Mistake, number, program
from ..simulate.ports import SIGNALS
from ..simulate.program import RATES
from ..simulate.vpcd import ADDRESS, MUTE_FOR
from . import engine, lines
from .any_job import AnyJob, card_of, chosen
from .by_hand import Hand
from .expect import accept
from .fixed import WORDS, FixedJob, LineJob, trials
from .interrupts import INTERRUPTS
from .jobs import Jobs, terminals
from .kept import Kept, source, sums
from .progress import Progress
from .report import as_html, as_json, as_junit, as_text, summary
from .rows import rows
from .trial import Trial

READER = "Virtual PCD 00 00"
USAGE = """Without --card TERMINAL selects {aid}, puts {value} under {tag} in pieces of 255, 255 and
90 bytes, gets {tag}, and prints the value that it read in hexadecimal. With --card it does any job
of its own. It has {reader}, for a reader of PC/SC, or {tty}, for a serial line, and may use the
folder {tmp}. Its exit status is 0 if all of that succeeded. The first trial has no fault. If a
terminal fails it, that ends the run. The files of --json, --html, --junit and --keep show what went
over the line, PINs too."""


def parser() -> argparse.ArgumentParser:
    it = argparse.ArgumentParser("galliumtoad.trials", epilog=USAGE,
                                 description="Lets a terminal do a job with cards that misbehave.")
    it.add_argument("--vpcd", default=ADDRESS, metavar="HOST:PORT",
                    help=f"for {{reader}}; {ADDRESS}")
    it.add_argument("--reader", action="append", default=[],
                    help=f"{{reader}}; else {READER}; once for each of --jobs")
    it.add_argument("--jobs", type=count, default=1, metavar="N",
                    help="tries N at once; each reader but the first has the next port of vpcd")
    it.add_argument("--protocol", choices=["0", "1"], default="0",
                    help="T of cards without an answer to reset of their own; else 0")
    it.add_argument("--limit", type=number, default=60, metavar="S",
                    help="seconds for a job, 0.1 to 86400; without it 60")
    it.add_argument("--only", metavar="WORD", default="",
                    help="runs those with WORD in their name or the name of their command")
    it.add_argument("--list", action="store_true",
                    help="prints all trials, runs none; with --card FILE the faults of any job")
    it.add_argument("--lines", action="store_true",
                    help="tries what a laboratory does with the characters of a line {tty}")
    it.add_argument("--slack", type=number, default=0.2, metavar="S",
                    help="with --lines: seconds that the terminal waits longer than the rules say,"
                    " 0 to 60; without it 0.2")
    it.add_argument("--marks", action="store_true", help="with --lines: wrong parity too; the"
                    " terminal reads its line as a tty with PARMRK")
    it.add_argument("--json", metavar="FILE", help="writes the results there too")
    it.add_argument("--html", metavar="FILE", help="writes them there too, as a page")
    it.add_argument("--junit", metavar="FILE", help="writes them there too, as XML of JUnit")
    add_any_job(it.add_argument_group("any job"))
    add_by_hand(it.add_argument_group("by hand"))
    it.add_argument("terminal", nargs="*", metavar="TERMINAL ..", help="a command line, after --")
    return it


def count(text: str) -> int:
    """Reads a number from 1 on. Raises `ValueError`."""
    it = number(text)
    if it < 1 or isinstance(it, float):
        raise ValueError(text)
    return int(it)


def add_any_job(it: "argparse._ArgumentGroup") -> None:
    it.add_argument("--card", metavar="CARD", help="MODULE:CLASS of an Application, or a capture:"
                    " TERMINAL does any job with that card; each fault strikes at each command")
    it.add_argument("--expect", metavar="FILE", help="verdicts of your own, a line each:"
                    " `at command 7 status 6983: may pass`, or a verdict in place of `may pass`")
    it.add_argument("--most", type=count, metavar="N", help="tries at most N, chosen by --seed")
    it.add_argument("--seed", type=number, default=0, metavar="N", help="without it 0")
    it.add_argument("--keep", metavar="FILE", help="keeps results there until the run ends, so that"
                    " the same words continue a run that ended early")
    it.add_argument("--before", type=shlex.split, metavar="COMMAND", default=[],
                    help="runs before each run, without a shell")
    it.add_argument("--after", type=shlex.split, metavar="COMMAND", default=[],
                    help="runs after each run")


def add_by_hand(it: "argparse._ArgumentGroup") -> None:
    it.add_argument("--by-hand", action="store_true", help="a terminal that is no program, with"
                    " --tty: you start it for each card, and type what it showed")
    it.add_argument("--tty", metavar="PATH", help="the card's end of its line")
    it.add_argument("--baud", default=RATES[0], choices=RATES, help="its rate at a reset; 9600")
    it.add_argument("--reset", choices=SIGNALS, default="", help="the line that holds the card in"
                    " reset; without it the only reset is when the card comes")


def terminal_of(given: argparse.Namespace) -> engine.Terminal:
    """The terminal of the command line. Raises `Mistake`."""
    if given.by_hand:
        return by_hand(given)
    names = {"reader": (given.reader or [READER])[0], **({} if given.card else WORDS)}
    it = engine.Terminal(given.terminal, names, given.vpcd, given.limit, given.before, given.after,
                         has_home=bool(given.card), has_marks=given.marks)
    if not it.is_line and not any("{reader}" in word for word in it.words):
        raise Mistake("the command line of the terminal has neither {reader} nor {tty}")
    if not 0.1 <= it.limit <= 86400:
        raise Mistake(f"--limit is {it.limit}, not from 0.1 to 86400 seconds")
    return it


def by_hand(given: argparse.Namespace) -> engine.Terminal:
    """A terminal that is no program. Raises `Mistake`."""
    if not given.tty or given.terminal or given.jobs > 1:
        raise Mistake("--by-hand needs --tty, no TERMINAL, and no --jobs")
    hand = Hand(given.tty, int(given.baud), given.reset)
    return engine.Terminal([], {}, "", given.limit, given.before, given.after, has_marks=True,
                           hand=hand)


def job_of(given: argparse.Namespace, terminal: engine.Terminal) -> Union[FixedJob, AnyJob]:
    """The job of the command line. Raises `Mistake`."""
    if given.card:
        any_job = AnyJob(card_of(given.card), terminal.is_line, int(given.protocol))
        any_job.has_echo = not terminal.hand
        return any_job
    for name in ("expect", "most", "keep"):
        if getattr(given, name) is not None:
            raise Mistake(f"--{name} needs --card")
    job = fixed_job(given, terminal)
    job.has_echo = not terminal.hand
    job.trials()
    return job


def fixed_job(given: argparse.Namespace, terminal: engine.Terminal) -> FixedJob:
    """The fixed job, or the one with the trials of a line. Raises `Mistake`."""
    if not given.lines:
        return FixedJob(terminal.is_line, int(given.protocol), given.only)
    if not terminal.is_line:
        raise Mistake("--lines needs {tty} in the command line of the terminal")
    if not 0 <= given.slack <= 60:
        raise Mistake(f"--slack is {given.slack}, not from 0 to 60 seconds")
    return LineJob(int(given.protocol), given.only, given.slack, terminal.has_marks)


def show_trials(found: list[Trial]) -> None:
    """Prints the trials of a fixed job."""
    print("\n\n".join(f"{it.name}: {f'{it.atr} {it.faults}'.strip()}\n"
                      f"A good terminal {it.expected}.\n{it.clause}" for it in found))


def show_faults() -> None:
    """Prints the faults of any job."""
    print("\n\n".join(it.text for it in rows()))


def selected(job: Union[FixedJob, AnyJob], given: argparse.Namespace) -> list[Trial]:
    """The trials that run, with a team's own verdicts. Raises `Mistake`."""
    found = job.trials()
    if given.expect:
        accept(given.expect, found)
    return chosen(found, given.only, given.most, given.seed) if given.card else found


def identity(given: argparse.Namespace, job: AnyJob) -> dict[str, Any]:
    """What is tried: results of anything else are no results of it."""
    files = sums([*given.terminal, given.card, source(job.new_card())])
    options = {it: getattr(given, it) for it in ("terminal", "card", "protocol", "limit", "before",
                                                 "after")}
    commands = [it.command[:4].hex() for it in job.steps]
    return {**options, "files": files, "commands": commands}


class Results:
    """Shows results, and keeps them."""

    def __init__(self, count: int, kept: Optional[Kept]) -> None:
        self.kept = kept
        self.progress = Progress(count, lambda text: print(text, file=sys.stderr, flush=True))

    def show(self, it: Trial) -> None:
        """Shows a result."""
        print(as_text(it), flush=True)
        self.progress.step()

    def add(self, it: Trial) -> None:
        """Keeps and shows a new result."""
        if self.kept:
            self.kept.add(it)
        self.show(it)


def run_all(job: Union[FixedJob, AnyJob], found: Sequence[engine.Terminal],
            given: argparse.Namespace, kept: Optional[Kept]) -> list[Trial]:
    """Runs and shows all trials of a job, the first without a fault. Raises `Mistake`."""
    first = job.begin(found[0])
    print(as_text(first), flush=True)
    trials_ = selected(job, given)
    if kept and isinstance(job, AnyJob):
        kept.begin(identity(given, job))
    results = Results(len(trials_), kept)
    left = []
    for at, it in enumerate(trials_):
        if kept and kept.has(it):
            results.show(it)
        else:
            left.append(at)
    if len(found) == 1:
        for at in left:
            engine.tried(job, trials_[at], found[0])
            results.add(trials_[at])
    else:
        with INTERRUPTS.held(), Jobs(job, trials_, found[: len(left)]) as jobs:
            jobs.run(left, results.add)
    return [first, *trials_]


@program
def main(words: Optional[list[str]] = None) -> int:
    """Runs the program. Returns the exit status."""
    given = parser().parse_args(words)
    if given.list:
        if given.card:
            show_faults()
        else:
            show_trials(lines.trials(given.slack) if given.lines else trials())
        return 0
    terminal = terminal_of(given)
    job = job_of(given, terminal)
    files = [(path, form) for path, form in [(given.json, as_json), (given.html, as_html),
                                             (given.junit, as_junit)] if path]
    for path, _ in files:
        open(path, "a").close()  # one that can't be written is named before the run
    kept = Kept(given.keep) if given.keep else None
    if terminal.limit < MUTE_FOR:
        print(f"--limit {terminal.limit}: a terminal that waits for a mute card may look hung,"
              f" since a reader waits {MUTE_FOR:.0f} seconds", file=sys.stderr, flush=True)
    results = run_all(job, terminals(terminal, given.jobs, given.reader or [READER]), given, kept)
    print(summary(results), flush=True)
    for path, form in files:
        Path(path).write_text(form(results), "utf-8")
    if kept:
        kept.remove()
    return int(any(it.is_bad for it in results))
