"""A card of a program in any language, which gets lines and answers with lines."""

import atexit
import re
import select
import shlex
import time
from subprocess import PIPE, Popen
from typing import Any, Optional, Sequence

from .. import Application, Command
from ..mistakes import Mistake, mistakes
from ..waits import next_byte
from .applications import STATUS

PATIENCE = 10.0  # seconds for a line of a program
# What a program answers to a header, and to a command: data if any, and SW.
WAY = "(to|from)-card"
RESPONSE = f"(?:((?:[0-9A-F]{{2}}){{1,4096}}) )?({STATUS})"


class Program(Application):
    """An application in a program, which gets a line and answers with one. A program that is
    silent, ends or answers anything else is a `Mistake` with the line.

    >>> Program("sh -c 'read line; echo to-card; read line'").takes_data(bytes(4))
    True"""
    fault: Optional[Mistake] = None  # the first one

    def __init__(self, command: str) -> None:
        with mistakes(command):
            self.program: Any = Popen(shlex.split(command), 0, stdin=PIPE, stdout=PIPE)
        atexit.register(self.program.kill)

    def takes_data(self, header: bytes) -> bool:
        return self.ask(f"header {header.hex().upper()}", WAY)[0] == "to"

    def carry_out(self, command: Command) -> tuple[int, bytes]:
        line = f"command {(command.header + command.data).hex().upper()} {command.le or ''}"
        data, status = self.ask(line.rstrip(), RESPONSE)
        return int(status, 16), bytes.fromhex(data or "")

    def settle(self) -> None:
        self.ask("settled")

    def reset(self) -> None:
        self.ask("reset")

    def ask(self, line: str, form: str = "") -> Sequence[str]:
        """Sends a line. Returns the parts of its answer, which has this form, if it has one."""
        try:
            self.send(line)
            said = self.read_line() if form else b""
            if found := re.fullmatch(form, said.decode("ascii", "replace").strip(), re.I):
                return found.groups()
            raise OSError(f"it said {said!r}")
        except OSError as why:
            self.fault = self.fault or Mistake(f"the program at the line '{line}': {why}")
            raise self.fault from None

    def send(self, line: str) -> None:
        """Sends a line to a program that waits for one. Raises `OSError`."""
        out = self.program.stdout
        can_be_read, _, _ = select.select([out], [], [], 0)
        if can_be_read:
            said = out.read(100)
            raise OSError(f"it had said {said!r}" if said else "it has ended")
        self.program.stdin.write(f"{line}\n".encode())

    def read_line(self) -> bytes:
        """The program's next line. Raises `OSError`."""
        until = time.monotonic() + PATIENCE
        said = b""
        while said[-1:] != b"\n":
            byte = next_byte(self.program.stdout.fileno(), until)
            if not byte:
                raise OSError(f"it said {said[:100]!r}, and no more in {PATIENCE:.0f} s")
            said += byte
        return said
