"""Waits of tests: until something holds, in place of a pause after which it may not hold yet. And
the simulated card that such tests talk to."""

import os
import select
import signal
import subprocess
import sys
import time
from pathlib import Path

SECONDS = 60  # on a busy machine


def wait_until(holds):
    """Waits until this holds. Raises `TimeoutError`."""
    until = time.monotonic() + SECONDS
    while not holds():
        if time.monotonic() > until:
            raise TimeoutError
        time.sleep(0.02)


def wait_for_looks(program):
    """Waits until a program that looks at a line all the time has done so: it has slept some more
    times."""
    def sleeps():
        text = Path(f"/proc/{program.pid}/status").read_text()
        return int(text.split("\nvoluntary_ctxt_switches:")[1].split()[0])

    before = sleeps()
    wait_until(lambda: program.poll() is not None or sleeps() >= before + 4)


def read_proc(path):
    """The bytes of a file of a process, or none if the process has ended."""
    try:
        return path.read_bytes()
    except OSError:
        return b""


def none_is_left(folder, session=None):
    """Whether no process is left that has this folder for its files or is of a session, and no
    folder of a run."""
    has_folder = f"TMPDIR={folder}\0".encode()
    for it in Path("/proc").glob("[0-9]*"):
        if has_folder in read_proc(it / "environ"):
            return False
        of_session = read_proc(it / "stat").rpartition(b") ")[2].split()[3:4]
        # the kernel's own processes are of session 0
        if session and of_session == [b"%d" % session]:
            return False
    return not list(folder.glob("trials-*"))


class AtPty:
    """The program `galliumtoad.simulate` at a pseudo terminal, and this end of it."""

    def __init__(self, *words, **more):
        self.program = subprocess.Popen(
            [sys.executable, "-m", "galliumtoad.simulate", *words, "--pty"], text=True,
            stdout=subprocess.PIPE, stderr=subprocess.PIPE,
            # these tests may run where SIGINT is ignored
            preexec_fn=lambda: signal.signal(signal.SIGINT, signal.SIG_DFL), **more)
        self.name = self.program.stdout.readline().strip()
        self.has_echo = "--no-echo" not in words
        self.line = -1
        self.said = ()

    def open(self, atr="3B00"):
        """Opens the line, on which this answer to reset comes."""
        self.line = os.open(self.name, os.O_RDWR | os.O_NOCTTY)
        assert self.read(len(atr) // 2).hex().upper() == atr
        return self

    def close(self):
        os.close(self.line)
        wait_for_looks(self.program)

    def read(self, count, seconds=30):
        found = b""
        while len(found) < count and select.select([self.line], [], [], seconds)[0]:
            if not (byte := os.read(self.line, 1)):
                break  # the program has ended
            found += byte
        return found

    def talk(self, sent, count):
        """Sends characters, and returns `count` of the card."""
        for byte in sent:
            os.write(self.line, bytes([byte]))
            if self.has_echo:
                assert self.read(1) == bytes([byte])
        return self.read(count)

    def end(self):
        """Ends the program. Returns what it printed."""
        if not self.said:
            self.program.kill()
            self.said = self.program.communicate()
        return self.said
