"""The program: puts a card with faults into a reader, or at a line."""

import argparse
import contextlib
import os
import sys
import termios
from pathlib import Path
from typing import Optional

from .. import OwnCard
from ..cards import LEAST_ATR, Program, Replay, application, read_table, status_of, typed
from ..faults import Faults, read
from ..mistakes import mistakes, number, program
from . import serve, vpcd
from .ports import SIGNALS
from .simulator import Simulator

ASK = "ask"  # in place of the status of an unknown command
RATES = ["9600", "19200", "38400", "57600", "115200"]


def parser() -> argparse.ArgumentParser:
    it = argparse.ArgumentParser("galliumtoad.simulate", description="A card with faults.",
                                 epilog="docs/SIMULATE.md says more.")
    add_cards(it.add_mutually_exclusive_group(required=True))
    add_places(it.add_mutually_exclusive_group(required=True))
    add = it.add_argument
    add("--atr", type=bytes.fromhex, metavar="HEX", help="answer to reset; else the card's or 3B00")
    add("--faults", metavar="FILE", help="lines WHEN, WHAT, as `command 2, cut 1`")
    add("--seed", type=number, default=0, help="the seed of faults `p CHANCE`; without it 0")
    add("-v", action="store_true", help="prints the dialogue for trace_explain (vpcd: --tpdu)")
    add("--no-echo", action="store_true", help="with --pty: no echo; without it there is one")
    add("--marks", action="store_true", help="with --pty: the terminal reads it as a tty that marks"
        " wrong parity: FF 00 before such a character, and FF FF for FF")
    add("--baud", default="9600", choices=RATES, help="the rate at a reset; without it 9600")
    add("--reset", choices=SIGNALS, default="", help="with --tty: the line that holds the card in "
        "reset while it is on; without it the only reset is the start")
    add("--unknown", metavar="SW", type=lambda it: it if it == ASK else status_of(it),
        default="6D00", help="with --replay: the status of a command that the capture lacks, or"
        " `ask` for an answer that you type; without it 6D00")
    add("--strict", action="store_true", help="with --replay: ends at another command")
    add("--list", action=ListFaults, nargs=0, help="prints all faults, and runs nothing")
    return it


class ListFaults(argparse.Action):
    """Prints the words of all faults, and ends the program."""

    def __call__(self, parser: argparse.ArgumentParser, *_: object) -> None:
        print(Path(__file__).with_name("faults.txt").read_text("utf-8"), end="")
        parser.exit()


def add_cards(it: "argparse._MutuallyExclusiveGroup") -> None:
    """What card it is."""
    add = it.add_argument
    add("--table", metavar="FILE", type=read_table, help="lines `app`, `object`, `locked`, `atr`")
    add("--application", metavar="MODULE:CLASS", dest="own", type=application,
        help="an Application made without arguments, of a module here or of an installed one")
    add("--program", metavar="COMMAND", dest="own", type=Program, help="by lines, in any language")
    add("--replay", metavar="FILE", help="a capture, or its trace_explain --json --commands")


def add_places(it: "argparse._MutuallyExclusiveGroup") -> None:
    """Where it is."""
    add = it.add_argument
    add("--vpcd", nargs="?", const=vpcd.ADDRESS, metavar="HOST:PORT",
        help=f"vsmartcard's reader; {vpcd.ADDRESS}")
    add("--pty", action="store_true", help="prints a pseudo terminal's name; opening it resets, "
        "unless it is open, or was closed in the same moment")
    add("--tty", metavar="PATH", help="a serial line")


def replayed(given: argparse.Namespace) -> Replay:
    """The card of a capture. Prints what it leaves out."""
    if given.unknown == ASK:
        it = Replay(given.replay, is_strict=given.strict, ask=typed)
    else:
        it = Replay(given.replay, given.unknown, given.strict)
    for line in it.left_out:
        print(line, file=sys.stderr, flush=True)
    return it


def simulator_of(given: argparse.Namespace) -> Simulator:
    """The card of the command line, with its faults. Raises `Mistake`."""
    own = replayed(given) if given.replay else given.own
    card, atr = given.table or (OwnCard(own), getattr(own, "atr", b"") or LEAST_ATR)
    text = mistakes(given.faults)(Path(given.faults or os.devnull).read_text)("utf-8-sig")
    faults = Faults(read(text, given.faults), given.seed)
    return Simulator(card, given.atr or atr, faults, given.v)


def run(it: Simulator, given: argparse.Namespace) -> None:
    """Serves the card where it is."""
    if given.vpcd:
        vpcd.serve_vpcd(it, given.vpcd)
    elif given.pty:
        serve.serve_pty(it, not given.no_echo, it.tell, int(given.baud), given.marks)
    else:
        serve.serve_tty(it, given.tty, int(given.baud), given.reset)


@program
def main(words: Optional[list[str]] = None) -> int:
    """Runs the program. Returns the exit status."""
    given = parser().parse_args(words)
    it = simulator_of(given)
    try:
        with contextlib.suppress(KeyboardInterrupt), it:
            run(it, given)
    except (OSError, termios.error) as why:
        print(why if isinstance(why, OSError) else OSError(*why.args, given.tty), file=sys.stderr)
        return 1
    return 0
