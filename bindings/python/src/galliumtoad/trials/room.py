"""The folder of one run, and the programs that run with it."""

import contextlib
import os
import re
import shlex
import shutil
import signal
import tempfile
import time
from select import select
from subprocess import DEVNULL, PIPE, STDOUT, Popen, TimeoutExpired
from typing import Any, Mapping, Optional, Sequence

from ..mistakes import Mistake
from .interrupts import INTERRUPTS

AT_ONCE = 1 << 16  # bytes of an output
LAST_OUTPUT = 1 << 20  # bytes of it count
LAST_SAID = 2000  # characters of it in an error
# Where programs keep state, if not below HOME.
STATE = ("GNUPGHOME", "XDG_CONFIG_HOME", "XDG_DATA_HOME", "XDG_CACHE_HOME", "XDG_STATE_HOME")
Program = Any  # a `Popen` whose output is a pipe


def as_text(output: bytes) -> str:
    """An output as ASCII."""
    return output.decode("ascii", "backslashreplace")


def output_until(until: float, program: Program) -> bytes:
    """The last megabyte of a program's output up to its end, or up to this time."""
    output = b""
    while (left := until - time.monotonic()) > 0:
        can_be_read, _, _ = select([program.stdout], [], [], left)
        came = program.stdout.read(AT_ONCE) if can_be_read else b""
        if not came:
            break
        output = (output + came)[-LAST_OUTPUT:]  # it may print without end
    return output


def status_until(until: float, program: Program) -> Optional[int]:
    """The exit status of a program that ends up to this time, or None."""
    try:
        return int(program.wait(max(until - time.monotonic(), 0)))
    except TimeoutExpired:
        return None


def kill(program: Program) -> None:
    """Ends a program, and the processes of its group, which it may have left behind."""
    with contextlib.suppress(ProcessLookupError):
        os.killpg(program.pid, signal.SIGKILL)
    program.wait()
    program.stdout.close()


class Room:
    """The files of one run, and the names that its command lines may use. With `has_home` it has a
    HOME of its own."""

    def __init__(self, names: Mapping[str, str], has_home: bool) -> None:
        self.tmp = tempfile.mkdtemp(prefix="trials-")
        self.names = {**names, "tty": "", "tmp": self.tmp}
        self.environment = dict(os.environ)
        if has_home:
            self.environment["HOME"] = os.path.join(self.tmp, "home")
            os.mkdir(self.environment["HOME"], 0o700)
            for it in STATE:
                self.environment.pop(it, None)

    def __enter__(self) -> "Room":
        return self

    def __exit__(self, *_: object) -> None:
        shutil.rmtree(self.tmp, ignore_errors=True)  # a process that is left may write there

    def filled(self, words: Sequence[str]) -> list[str]:
        """The words of a command line with the names in them."""
        return [re.sub(r"\{(\w+)\}", lambda it: self.names.get(str(it[1]), str(it[0])), word)
                for word in words]

    def plain(self, text: str) -> str:
        """A text with {tmp} and {tty} in place of what they were."""
        for name in ("tmp", "tty"):
            if value := self.names[name]:
                text = re.sub(rf"{re.escape(value)}(?!\w)", f"{{{name}}}", text)
        return text

    def ended(self, words: Sequence[str], limit: float) -> tuple[Optional[int], bytes]:
        """Runs a command line until it ends or the limit. Returns its exit status, if it has ended,
        and the last megabyte of its output."""
        until = time.monotonic() + limit
        program = Popen(self.filled(words), 0, stdin=DEVNULL, stdout=PIPE, stderr=STDOUT,
                        env=self.environment, start_new_session=True)
        try:
            with INTERRUPTS.wait():
                output = output_until(until, program)
                status = status_until(until, program)
        finally:
            kill(program)
        return status, output

    def done(self, option: str, words: Sequence[str], limit: float) -> None:
        """Runs a command around a run, if there is one. Raises `Mistake` if it fails."""
        if not words:
            return
        status, output = self.ended(words, limit)
        if status != 0:
            end = "did not end" if status is None else f"ended with {status}"
            said = as_text(output)[-LAST_SAID:].strip()
            raise Mistake(f"{option} {shlex.join(words)}: it {end}: {said}")
