"""Runs gt_serial and serial_card, for the tests of both."""

import os
import select
import subprocess
import threading
import time
from pathlib import Path

TOP = Path(__file__).resolve().parent.parent.parent
BUILD = Path(os.environ.get("SERIAL_BUILD", TOP / "bindings/c/build/standin"))
TABLE = TOP / "bindings/c/examples/demo.table"
SECONDS = 30

# The running programs, and whether no other may begin.
RUNNING = set()
IS_OVER = threading.Event()


class Late(AssertionError):
    """A program that ended later than it should, as on a busy machine it may."""


class Program:
    """A running program, with the stand-in for a tty. `before` is a shell command that runs first:
    `trap "" HUP` makes it ignore a signal, and `exec 1>&-` closes a descriptor. `user` is the
    number of another user."""

    def __init__(self, name, words, given=b"", environment=(), stdout=subprocess.PIPE, before="",
                 user=None):
        names = {**os.environ, "LC_ALL": "C", **dict(environment)}
        before = ["sh", "-c", f'{before}; exec "$@"', "sh"] if before else []
        self.began = time.monotonic()
        self.process = subprocess.Popen(
            [*before, BUILD / name, *map(str, words)],
            stdin=subprocess.PIPE,
            stdout=stdout,
            stderr=subprocess.PIPE,
            env=names,
            user=user,
        )
        RUNNING.add(self.process)
        if IS_OVER.is_set():
            self.process.kill()
        if given:
            self.process.stdin.write(given)
        self.process.stdin.close()
        self.process.stdin = None
        self.output = self.faults = ""
        self.seconds = 0.0

    def first_line(self):
        """Waits for the first line of output."""
        return self.process.stdout.readline().decode().rstrip("\n")

    def first_fault(self, seconds):
        """The first line on standard error in this time, or nothing."""
        ready, _, _ = select.select([self.process.stderr], [], [], seconds)
        return self.process.stderr.readline().decode() if ready else ""

    def end(self):
        """Waits for the end, and returns the status. `output`, `faults` and `seconds` are then
        those of the whole run."""
        try:
            output, faults = self.process.communicate(timeout=SECONDS)
        except subprocess.TimeoutExpired:
            self.process.kill()
            output, faults = self.process.communicate()
            faults += b"it hangs\n"
        RUNNING.discard(self.process)
        self.seconds = time.monotonic() - self.began
        self.output = (output or b"").decode()
        self.faults = faults.decode()
        return self.process.returncode

    def kill(self, number):
        self.process.send_signal(number)


def in_time(test, fault=AssertionError):
    """Runs a test that measures short times. It runs it again if that ends in `fault`, since a busy
    machine may be late."""
    for _ in range(5):
        try:
            return test()
        except fault:
            time.sleep(0.2)
    return test()


def must_end(seconds, least, most):
    """A program that ended after these seconds ended neither too early nor too late."""
    assert least <= seconds, f"it ends after {seconds:.2f} s"
    if seconds >= most:
        raise Late(f"it ends after {seconds:.2f} s")


def end_all():
    """Ends the programs that failed tests have left, and those that begin after that."""
    IS_OVER.set()
    for process in list(RUNNING):
        process.kill()
        process.wait()
