"""What the programs of this package share: mistakes in words and files, and the exit status."""

import contextlib
import os
import re
import sys
from typing import Any, Callable, Iterator, Optional

CONTROLS = {it: f"\\x{it:02x}" for it in range(160) if it not in range(32, 127) and it != 10}


class Mistake(Exception):
    """The words of a command line or of a file are refused."""


@contextlib.contextmanager
def mistakes(what: str, *kinds: type[Exception]) -> Iterator[None]:
    """Makes errors about a word or a file, which is `what`, a `Mistake`; or errors of `kinds`.

    >>> with mistakes("--limit"):
    ...     int("x")
    Traceback (most recent call last):
    galliumtoad.mistakes.Mistake: --limit: invalid literal for int() with base 10: 'x'
    """
    try:
        yield
    except kinds or Exception as why:
        raise why if isinstance(why, Mistake) else Mistake(f"{what}: {why}") from None


def number(text: str) -> Any:
    """Reads a number of an option, of the digits 0 to 9 and a point. Raises `ValueError`."""
    if not re.fullmatch(r"[0-9]+(\.[0-9]+)?", text):
        raise ValueError(f"not a number: {text}")
    return float(text) if "." in text else int(text)


def program(main: Callable[[Any], int]) -> Callable[..., int]:
    """Makes a program of its `main`. The exit status is 2 after a `Mistake`, an interrupt, or if a
    stream can't be written. A closed one is as /dev/null. No option has an empty value: some
    versions of argparse make a list of --OPTION=--."""
    def run(words: Optional[list[str]] = None) -> int:
        sys.stdout = sys.stdout or open(os.devnull, "w")
        sys.stderr = sys.stderr or open(os.devnull, "w")
        getattr(sys.stdout, "reconfigure", dict)(errors="backslashreplace")  # for names of files
        words = sys.argv[1:] if words is None else words
        try:
            for word in words[: [*words, "--"].index("--")]:
                if re.fullmatch("(-[^=]+=(--)?)?", word):
                    raise Mistake(f"an empty value: '{word}'")
            return main(words)
        except (Mistake, OSError, KeyboardInterrupt) as why:
            print(str(why).translate(CONTROLS) or "interrupted", file=sys.stderr)
            return 2
        finally:
            try:
                sys.stdout.flush()
                sys.stderr.flush()
            except OSError:
                vars(sys).update(stdout=None, stderr=None)  # else they fail again at the end
                sys.exit(2)
    return run
