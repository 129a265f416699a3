"""Tests that an interrupt at any line of a run leaves neither a process nor a file, and is not
lost. A process runs the program, and interrupts itself at the first time of a line."""

import os
import signal
import sys
import tempfile
from pathlib import Path

import pytest
from galliumtoad import trials
from galliumtoad.trials.interrupts import Interrupts
from test_bad_jobs import TERMINAL
from waiting import none_is_left, wait_until

# How many lines are tried, at equal distances.
MOMENTS = int(os.environ.get("MOMENTS", "30"))
LIBRARY = Path(os.__file__).parent
# The files whose lines count: what a run consists of, and what makes processes and files for it.
FILES = (str(Path(trials.__file__).parent), str(LIBRARY / "subprocess.py"),
         str(LIBRARY / "tempfile.py"), str(LIBRARY / "multiprocessing"))
# A terminal that leaves a process behind.
LEAVES = "sleep 1000 > /dev/null 2>&1 & exec \"$@\""
JOB = ["--only", "command 2 status 6F00", "--card", "any_cards:Safe", "--", "sh", "-c", LEAVES,
       "sh", *TERMINAL, "safe", ""]


@pytest.fixture
def handler():
    """What a program has at its start: these tests may run where SIGINT is ignored."""
    before = signal.signal(signal.SIGINT, signal.default_int_handler)
    yield signal.default_int_handler
    signal.signal(signal.SIGINT, before)


def interrupt():
    signal.raise_signal(signal.SIGINT)


def test_an_interrupt_ends_a_wait(handler):
    it = Interrupts()
    with pytest.raises(KeyboardInterrupt), it.held(), it.wait():
        interrupt()
        pytest.fail("it waits")
    assert signal.getsignal(signal.SIGINT) == handler
    with it.held(), it.wait():  # it was one
        pass


def test_what_ends_after_an_interrupt_is_not_interrupted(handler):
    it = Interrupts()
    ended = []
    with pytest.raises(KeyboardInterrupt), it.held():
        try:
            with it.wait():
                interrupt()
        finally:
            interrupt()
            ended.append("all")
    assert ended == ["all"]


def test_an_interrupt_before_a_wait(handler):
    """It comes as the wait begins, or at the end without one. It hides an error."""
    it = Interrupts()
    begun = []
    with pytest.raises(KeyboardInterrupt), it.held():
        interrupt()
        begun.append("all")
        with it.wait():
            pytest.fail("it waits")
    for error in (None, ValueError):
        with pytest.raises(KeyboardInterrupt), it.held():
            interrupt()
            begun.append("all")
            if error:
                raise error
    assert len(begun) == 3
    with it.held(), it.wait():
        begun.append("next")
    with pytest.raises(KeyboardInterrupt):  # nothing holds it
        interrupt()


def test_an_interrupt_after_a_wait(handler):
    it = Interrupts()
    ended = []
    with pytest.raises(KeyboardInterrupt), it.held():
        with it.wait():
            pass
        interrupt()
        ended.append("all")
    assert ended


def test_a_program_that_nothing_interrupts(handler):
    signal.signal(signal.SIGINT, signal.SIG_IGN)
    it = Interrupts()
    with it.held(), it.wait():
        interrupt()
        assert signal.getsignal(signal.SIGINT) == signal.SIG_IGN


class Lines:
    """The lines that the main thread has run. At the first time of one it interrupts."""

    def __init__(self, last):
        self.seen, self.last = set(), last

    def call(self, frame, _event, _it):
        return self.line if frame.f_code.co_filename.startswith(FILES) else None

    def line(self, frame, event, _it):
        place = frame.f_code.co_filename, frame.f_lineno
        if event == "line" and place not in self.seen:
            self.seen.add(place)
            if len(self.seen) == self.last:
                signal.raise_signal(signal.SIGINT)
        return self.line


def run(words, folder, last):
    """Runs the program in this process, which ends with it."""
    os.setsid()
    signal.signal(signal.SIGINT, signal.default_int_handler)
    os.environ["TMPDIR"] = tempfile.tempdir = str(folder)
    sys.stdout, sys.stderr = open(folder / "out", "w"), open(folder / "error", "w")
    lines = Lines(last)
    sys.settrace(lines.call)
    status = trials.main(words)
    sys.settrace(None)
    (folder / "lines").write_text(str(len(lines.seen)))
    os._exit(status)


def ended(words, folder, last=0):
    """The status of a run that interrupts itself, or of a whole one."""
    folder.mkdir()
    if not (number := os.fork()):
        try:
            run(words, folder, last)
        finally:
            os._exit(99)  # an error of this test
    _, status = os.waitpid(number, 0)
    wait_until(lambda: none_is_left(folder, number))
    return os.waitstatus_to_exitcode(status)


def lines_of(folder):
    """How many lines a run came to."""
    return int((folder / "lines").read_text())


@pytest.mark.parametrize("words", [[], ["--jobs", "2"]], ids=["one", "two"])
def test_an_interrupt_at_a_line(tmp_path, words):
    """With one terminal after another, and with two at once."""
    words = [*words, *JOB]
    assert ended(words, tmp_path / "whole") == 0
    count = lines_of(tmp_path / "whole")
    for last in range(1, count, max(count // MOMENTS, 1)):
        folder = tmp_path / str(last)
        if ended(words, folder, last) == 0:
            # the run came to fewer lines than the first one, or it was over
            assert lines_of(folder) <= last
        else:
            assert (folder / "error").read_text() == "interrupted\n", last
