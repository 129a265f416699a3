"""The programs of the package: `python3 -m galliumtoad PROGRAM ..`."""

import argparse
import importlib
import sys
from typing import Optional

from . import __version__, mistakes

# Each is a module with a function `main`, which takes words and returns an exit status.
PROGRAMS = {"batch": "personalises cards by the hundred; needs pyscard (the extra `pcsc`)",
            "simulate": "a card at vpcd or a serial line, which misbehaves if a file says so",
            "trials": "lets a terminal do a job with cards that misbehave, and judges it"}


@mistakes.program
def main(words: Optional[list[str]] = None) -> int:
    """Runs a program, or prints the help. Returns the exit status."""
    parser = argparse.ArgumentParser("galliumtoad", description="Both ends of a smart card.")
    parser.add_argument("--version", action="version", version=f"%(prog)s {__version__}")
    listed = "; ".join(f"{name}: {what}" for name, what in PROGRAMS.items())
    parser.add_argument("program", choices=PROGRAMS, metavar="PROGRAM", help=listed)
    parser.add_argument("words", nargs=argparse.REMAINDER, metavar="..", help="its words or --help")
    given = parser.parse_args(words or ["--help"])
    return int(importlib.import_module(f"galliumtoad.{given.program}").main(given.words))


if __name__ == "__main__":
    sys.exit(main())
