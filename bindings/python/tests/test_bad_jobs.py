"""Tests that the trials of any job find a terminal with one mistake, by a fault with a fitting
name. That those without a mistake pass all is in test_any_trials.py."""

import json
import os
import sys
from pathlib import Path

import pytest
from galliumtoad.trials import main
from room import folder_of_programs

TESTS = Path(__file__).resolve().parent
# The card of each job.
CARDS = {"safe": "any_cards:Safe", "purse": "any_cards:Purse", "chain": "any_cards:Chain",
         "store": "any_cards:Chain", "nonce": "any_cards:Nonce"}
TERMINAL = [sys.executable, "-IS", str(TESTS / "any_terminal.py"), "{tty}"]


@pytest.fixture(autouse=True)
def programs(monkeypatch):
    monkeypatch.setenv("PATH", f"{folder_of_programs()}:{os.environ['PATH']}")


def tried(tmp_path, job, mistake, *words, limit=60):
    """The exit status of the trials of a job, and each one's verdict."""
    made = tmp_path / "made.json"
    words = ["--card", CARDS[job], "--limit", str(limit), "--json", str(made), *words]
    status = main([*words, "--", *TERMINAL, job, mistake])
    found = json.loads(made.read_text() or "[]")
    return status, {it["name"]: it["verdict"] for it in found}


# A job, a mistake, a fault that finds it, and its verdict.
MISTAKES = [
    ("safe", "no status", "command 2 status 6F00", "wrong"),
    ("safe", "no status of the first command", "command 1 status 6F00", "wrong"),
    ("safe", "no status of the second command", "command 2 status 6F00", "wrong"),
    ("safe", "no status of the third command", "command 3 status 6F00", "wrong"),
    ("safe", "a wrong PIN taken", "command 2 status 63C2", "wrong"),
    ("safe", "a wrong PIN taken", "command 2 status 6300", "wrong"),
    ("safe", "a blocked PIN taken", "command 2 status 6983", "wrong"),
    ("safe", "damaged data taken", "command 3 status 6281", "wrong"),
    ("safe", "another name printed at a warning", "command 3 status 6200", "wrong"),
    ("safe", "sent again after an error", "command 2 status 6F00", "twice"),
    ("safe", "any name printed", "command 3 other value", "changed"),
    ("safe", "exit 0 always", "command 2 power off", "wrong"),
    ("safe", "exit 0 always", "command 1 refuse 6A82", "wrong"),
    ("safe", "exit 0 always", "command 2 reset", "changed"),
    ("safe", "gives up in silence", "command 2 reset", "wrong"),
    ("safe", "no limit of time", "command 1 mute", "hung"),
    ("safe", "crashes at an error", "command 2 refuse 6982", "crashed"),
    ("safe", "6CXX for ever", "command 3 6C again", "hung"),
    ("safe", "NULL not known", "command 2 nulls 1000", "failed"),
    ("safe", "a complement taken for INS", "command 2 complement", "failed"),
    ("safe", "any procedure byte taken", "command 1 procedure 33", "wrong"),
    ("store", "an early status taken", "command 2 early status", "wrong"),
    ("safe", "the echo of a header not compared", "command 3 wrong echo", "wrong"),
    ("safe", "the echo of data not compared", "command 2 wrong echo of data", "wrong"),
    ("purse", "no status of the second command", "command 2 refuse 6982", "wrong"),
    ("purse", "sent again after an error", "command 2 status 6F00", "twice"),
    ("purse", "sent again after a warning", "command 2 status 6200", "twice"),
    ("purse", "exit 0 always", "command 2 mute", "wrong"),
    ("purse", "no status", "command 2 refuse 6F00", "wrong"),
    ("purse", "no status of the third command", "command 3 status 6F00", "wrong"),
    ("purse", "no status of the first command", "command 1 status 6F00", "wrong"),
    ("purse", "NULL not known", "command 2 nulls 1000", "failed"),
    ("purse", "crashes at an error", "command 2 status 6F00", "crashed"),
    ("purse", "no limit of time", "command 3 mute", "hung"),
    ("purse", "any procedure byte taken", "command 1 procedure 33", "wrong"),
    ("purse", "gives up in silence", "command 2 refuse 6F00", "wrong"),
    ("purse", "the echo of a header not compared", "command 2 wrong echo", "wrong"),
    ("purse", "6CXX for ever", "command 3 6C again", "hung"),
    ("chain", "any 65XX taken", "command 2 status 6581", "wrong"),
    ("chain", "no status but of the last command", "command 2 status 6F00", "wrong"),
    ("chain", "sent again after a warning", "command 2 status 6200", "twice"),
    ("chain", "exit 0 always", "command 4 refuse 6F00", "wrong"),
    ("chain", "no status", "command 3 status 6F00", "wrong"),
    ("chain", "no status of the first command", "command 1 status 6F00", "wrong"),
    ("chain", "sent again after an error", "command 3 status 6F00", "twice"),
    ("chain", "crashes at an error", "command 3 refuse 6F00", "crashed"),
    ("chain", "NULL not known", "command 3 nulls 1000", "failed"),
    ("chain", "a complement taken for INS", "command 2 complement", "failed"),
    ("chain", "any procedure byte taken", "command 1 procedure 33", "wrong"),
    ("chain", "the echo of a header not compared", "command 3 wrong echo", "wrong"),
    ("chain", "the echo of data not compared", "command 2 wrong echo of data", "wrong"),
    ("chain", "gives up in silence", "command 4 refuse 6F00", "wrong"),
]


def test_the_corpus():
    """Forty bad terminals or more, at three jobs: of a safe, of a purse, and of a value."""
    found = {("chain" if job == "store" else job, mistake) for job, mistake, _, _ in MISTAKES}
    assert len(found) >= 40 and {job for job, _ in found} == {"safe", "purse", "chain"}


@pytest.mark.parametrize(("job", "mistake", "name", "verdict"), MISTAKES)
def test_a_mistake_is_found(tmp_path, job, mistake, name, verdict):
    limit = 12 if verdict == "hung" else 60
    status, found = tried(tmp_path, job, mistake, "--only", name, limit=limit)
    assert (found["no fault"], found[name]) == ("right", verdict)
    assert status == 1
