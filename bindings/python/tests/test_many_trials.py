"""Tests that many faults and many trials leave nothing behind: no process, no thread, no open file,
no folder, no memory. RUNS is the number of trials."""

import gc
import itertools
import os
import re
import sys
import tempfile
import threading
from pathlib import Path

import pytest
from any_cards import Safe
from galliumtoad import OwnCard
from galliumtoad.edits import block
from galliumtoad.faults import Faults, read
from galliumtoad.simulate import Simulator
from galliumtoad.trials import engine
from galliumtoad.trials.any_job import AnyJob
from line_in_memory import End, at_t0, at_t1
from test_bad_jobs import TERMINAL

RUNS = int(os.environ.get("RUNS", "100"))
FAULTS = 10_000
AT_A_LINE = 1000
FEW = 20  # of these leave less than one block of memory
ATR = b"\x3b\x80\x80\x01\x01"
READ = bytes.fromhex("00B0000001")
# Trials in which a good terminal waits for nothing.
QUICK = "command [23] (refuse|status|twice|flip|cut|wrong echo|complement).*"


def blocks():
    """How many blocks of memory this process has, without the expressions that Python keeps."""
    re.purge()
    gc.collect()
    return sys.getallocatedblocks()


def held():
    """The processes that this one has started, its threads and its open files."""
    children = [it for path in Path("/proc/self/task").glob("*/children")
                for it in path.read_text().split()]
    return children, threading.active_count(), len(os.listdir("/proc/self/fd"))


def leaves_nothing(does, count, first=FEW):
    """Does something that often, after some times that may leave something."""
    for _ in range(first):
        does()
    before, memory = held(), blocks()
    for _ in range(count):
        does()
    assert blocks() - memory < max(count // FEW, 100)
    assert held() == before


class Struck:
    """Counts the faults that strike."""

    count = 0

    def add(self, _said):
        self.count += 1


def card_of(fault):
    """A card at which this fault strikes, and a count."""
    struck = Struck()
    card = Simulator(OwnCard(Safe()), ATR, Faults(read(fault)))
    card.faults.tell = struck.add
    return card, struck


@pytest.mark.parametrize("fault", ["status 6F00", "refuse 6F00", "twice", "forget", "reset"])
def test_a_session_of_many_faults(fault):
    """In this process, by whole commands."""
    card, struck = card_of(f"p 1, {fault}")
    leaves_nothing(lambda: card(READ), FAULTS)
    assert struck.count == FAULTS + FEW


@pytest.mark.parametrize(
    ("talks", "fault", "sent"),
    [(at_t0, "p 1, nulls 3", [READ]), (at_t0, "p 1, sw1 alone", [READ]),
     (at_t1, "p 1, lrc", [block(0, 0, READ), block(0, 0x40, READ)])],
)
def test_many_faults_at_a_line(talks, fault, sent):
    card, struck = card_of(fault)
    end = End(card, talks)

    def does():
        for byte in b"".join(sent):
            end.take_in(bytes([byte]))
        end.note()

    leaves_nothing(does, AT_A_LINE // len(sent))
    assert struck.count >= AT_A_LINE


def test_many_trials(tmp_path, monkeypatch):
    """Each has a terminal, a card and a folder of its own."""
    monkeypatch.setattr(tempfile, "tempdir", str(tmp_path))
    terminal = engine.Terminal([*TERMINAL, "safe", ""], {}, "", 60, has_home=True)
    job = AnyJob("any_cards:Safe", True, 0)
    job.begin(terminal)
    # each keeps its result, and Python what it needs again: the first 200 runs don't count
    trials = [it for it in job.trials() if re.fullmatch(QUICK, it.name)][:FEW]
    turns = itertools.count()

    def does():
        it = trials[next(turns) % len(trials)]
        engine.tried(job, it, terminal)
        assert not it.is_bad

    leaves_nothing(does, RUNS, 200)
    assert not list(tmp_path.iterdir())
