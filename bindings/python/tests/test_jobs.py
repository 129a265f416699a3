"""Tests several trials at once: their results, and that an interrupt leaves neither a process nor a
file."""

import json
import os
import signal
import subprocess
import sys
import time
from pathlib import Path

import pytest
from galliumtoad.mistakes import Mistake
from galliumtoad.trials import engine, main
from galliumtoad.trials.jobs import Jobs, terminals
from galliumtoad.trials.trial import Trial
from test_bad_jobs import TERMINAL
from waiting import none_is_left, wait_until

SAFE = ["--card", "any_cards:Safe", "--only", "command 2 status 6"]


def tried(tmp_path, *words):
    """The exit status, and the name and verdict of each trial."""
    made = tmp_path / "made.json"
    status = main([*SAFE, "--json", str(made), *words, "--", *TERMINAL, "safe", "no status"])
    return status, [(it["name"], it["verdict"]) for it in json.loads(made.read_text())]


def shown(capsys):
    """The lines that a run has printed, in any order, without what is measured."""
    lines = capsys.readouterr().out.splitlines()
    return sorted(it for it in lines if " measured: " not in it)


def test_results_are_those_of_one_after_another(tmp_path, capsys):
    """Also their order in files. A file of results continues either way."""
    alone = tried(tmp_path)
    verdicts = ["right", "wrong", "wrong", "wrong", "wrong", "passed"]
    assert alone[0] == 1 and [verdict for _, verdict in alone[1]] == verdicts
    lines = shown(capsys)
    assert tried(tmp_path, "--jobs", "2") == alone
    assert shown(capsys) == lines
    assert tried(tmp_path, "--jobs", "9", "--keep", str(tmp_path / "kept")) == alone


def test_each_reader_has_its_port():
    it = engine.Terminal(["x", "{reader}"], {}, "localhost:35963", 60)
    with pytest.raises(Mistake, match="^--jobs 3 needs --reader 3 times"):
        terminals(it, 3, ["A", "B"])
    line = engine.Terminal(["x", "{tty}"], {}, "localhost:35963", 60)
    assert terminals(line, 3, ["A"]) == [line] * 3
    for words in ("--jobs=0", "--jobs=1.5", "--jobs=\u0661"):
        with pytest.raises(SystemExit):
            main([words, "--", "true", "{tty}"])
    assert main(["--jobs", "2", "--", "true", "{reader}"]) == 2


class Fails:
    """A job whose card can't be made, and one whose process ends."""

    def __init__(self, why):
        self.why = why

    def run(self, trial):
        if self.why:
            raise self.why
        os.kill(os.getpid(), signal.SIGKILL)


@pytest.mark.parametrize("why", [Mistake("no card"), OSError("no line"), None])
def test_an_error_of_one_ends_all(why):
    trials = [Trial(str(it), "command 1, mute", "reports", "a") for it in range(4)]
    terminal = engine.Terminal(["true", "{tty}"], {}, "", 5)
    at_once = Jobs(Fails(why), trials, [terminal] * 2)
    with pytest.raises((Mistake, OSError), match=str(why or "a process of --jobs has ended")):
        with at_once:
            at_once.run(range(4), lambda it: pytest.fail("it is done"))
    assert not any(it.process.is_alive() for it in at_once.workers)
    assert not Path(at_once.folder).exists()


PLANTED = str(Path(__file__).with_name("planted.py"))
# A terminal that does its job in its first run, and then leaves a process and waits.
FIRST_IS_GOOD = f"""if mkdir "$0"/begun; then exec {sys.executable} {PLANTED} "$@" ""
fi 2> /dev/null; sleep 60 & exec sleep 60"""
JOB = ["{tty}", "{aid}", "{tag}", "{value}"]


def started(tmp_path, *words):
    return subprocess.Popen(
        [sys.executable, "-m", "galliumtoad.trials", *words], stdout=subprocess.PIPE,
        stderr=subprocess.PIPE, env={**os.environ, "TMPDIR": str(tmp_path)}, start_new_session=True,
        preexec_fn=lambda: signal.signal(signal.SIGINT, signal.default_int_handler))


def interrupted(run, is_of_group):
    """Interrupts a run, as by Ctrl-C if it is one of its group."""
    (os.killpg if is_of_group else os.kill)(run.pid, signal.SIGINT)
    error = run.communicate(timeout=60)[1].decode()
    assert run.returncode in (1, 2, -signal.SIGINT)  # 1 while Python loads modules
    assert error == "interrupted\n" or run.returncode != 2


@pytest.mark.parametrize("moment", [0.3, 0.8, 1.5])
def test_an_interrupt_at_the_start_leaves_nothing(tmp_path, moment):
    words = ["--only", "put", "--", "sh", "-c", "sleep 60 & exec sleep 60", str(tmp_path), "{tty}"]
    run = started(tmp_path, *words)
    time.sleep(moment)
    interrupted(run, True)
    wait_until(lambda: none_is_left(tmp_path))


@pytest.mark.parametrize("count", ["1", "3"])
def test_an_interrupt_leaves_nothing(tmp_path, count):
    """At any moment after the first run."""
    words = ["--jobs", count, "--only", "put", "--", "sh", "-c", FIRST_IS_GOOD]
    for number, moment in enumerate([0.0, 0.02, 0.05, 0.1, 0.2, 0.5]):
        folder = tmp_path / str(number)
        folder.mkdir()
        run = started(folder, *words, str(folder), *JOB)
        assert run.stdout.readline().startswith(b"right")
        time.sleep(moment)
        interrupted(run, number % 2)
        wait_until(lambda folder=folder: none_is_left(folder))
