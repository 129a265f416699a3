"""A room for tests of batches: readers of the stand-in for pyscard, a table, a script, and runs of
the program."""

import argparse
import contextlib
import io
import json
import os
import platform
import re
import signal
import sqlite3
import subprocess
import sys
import threading
from datetime import datetime
from pathlib import Path

import pytest
from waiting import wait_until

HERE = Path(__file__).resolve().parent
STANDIN = HERE / "standin"
AID = bytes.fromhex("A0000000031010")
SCRIPT = """# a person's card
select A0000000031010
put 5F20 @{name}
put 9F36 {code}
put 50 41*300
"""

# Carries out all rows, and leaves the log of the database behind, as a crash would.
CRASHES = """import os
from galliumtoad.batch.journal import Journal
journal = Journal("journal")
journal.sync([None] * 3)
journal.start("")
for row in 1, 2, 3:
    journal.begin(journal.reserve("A"), "0" * 16, "A")
    journal.identify(row, f"43{row}")
    journal.note(row, "done", "")
os._exit(0)
"""

# The program, in a process whose files have at most this number of bytes.
FULL = """import resource, runpy, signal
resource.setrlimit(resource.RLIMIT_FSIZE, ({0}, {0}))
signal.signal(signal.SIGXFSZ, signal.SIG_IGN)
runpy.run_module("galliumtoad.batch", run_name="__main__", alter_sys=True)
"""


def ended(run, seconds=100):
    """Waits for the end of a run, and returns its output. Kills a run that does not end."""
    try:
        return run.communicate(timeout=seconds)
    except subprocess.TimeoutExpired:
        os.killpg(run.pid, signal.SIGKILL)
        raise


def with_standin(folder="/", **more):
    """The environment of a program with the stand-in for pyscard, whose readers are in a folder."""
    paths = ":".join([str(STANDIN), *filter(None, [os.environ.get("PYTHONPATH")])])
    return {**os.environ, "STANDIN": str(folder), "PYTHONPATH": paths, **more}


def lines_up_to(run, *texts):
    """The lines that a run prints up to the one with the last of these texts, in any order. Kills a
    run that does not print them."""
    killer, lines, left = threading.Timer(60, run.kill), [], set(texts)
    killer.start()
    while left and (line := run.stdout.readline()):
        lines.append(line)
        left -= {it for it in left if it in line}
    killer.cancel()
    assert not left
    return lines


def interruptible(room, *words, handler=signal.default_int_handler):
    """Starts a run, which inherits whether SIGINT is ignored, as a script's background job does."""
    before = signal.signal(signal.SIGINT, handler)
    run = room.start(*words)
    signal.signal(signal.SIGINT, before)
    return run


def folder_of_programs():
    """A program that was just built comes before that of the repository."""
    built = os.environ.get("GALLIUMTOAD_BUILT", "")
    kept = HERE.parents[1] / "bin" / f"{platform.machine()}-linux-gnu"
    return built if os.path.exists(f"{built}/trace_explain") else kept


def refused(line):
    """What a run returns that is refused with this line."""
    return 2, "", f"galliumtoad.batch: {line}\n"


def listed(out):
    """The rows to decide in a run's summary."""
    words = [line.split() for line in out.splitlines() if line.startswith("row ")]
    return {int(it[1]): it[2].rstrip(":") for it in words}


def told(out):
    """The lines of a run without times, those of its start, and those about a missing card."""
    drop = ("starting", "continuing", "without --id", "  --look")
    lines = [re.sub(r", \d+\.\d s\b", "", it) for it in out.splitlines() if not it.startswith(drop)]
    return [it for it in lines if ": insert a card for row" not in it]


def steps_of(script, row):
    """The steps for a row. Raises `ValueError` with the mistakes in it."""
    wrong = [*script.wrong]
    steps = script.steps(row, "here", wrong)
    if wrong:
        raise ValueError("\n".join(wrong))
    return steps


class Room:
    """A folder with readers, a table and a script. A run creates the journal if it is missing, and
    writes the cards that lie in the readers, which have the number `card`. `environment` has
    variables of the stand-in for pyscard."""

    def __init__(self, path, rows, readers=1, card=0, **environment):
        self.path, self.is_apart, self.place = path, False, str(path / "journal")
        (path / "cards").mkdir()
        # two runs of these tests at the same time have different readers
        self.names = [f"Slot{at}-{os.getpid()}" for at in range(readers)]
        for name in self.names:
            self.add_reader(name, card)
        lines = [f"PERSON {at},{at:08X}" for at in range(1, rows + 1)]
        self.write("rows.csv", "\n".join(["name,code", *lines]) + "\n")
        self.write("script", SCRIPT)
        self.readers = [f"--reader=Slot{at}" for at in range(readers)]
        self.environment = with_standin(path, **environment)

    def add_reader(self, name, card=0):
        (self.path / name).mkdir(exist_ok=True)
        self.put_in(name, card)

    def id_of(self, number, reader=0):
        """The identifier of a reader's card of this number."""
        return f"{self.names[reader]}-{number}".encode().hex().upper()

    def put_in(self, name, card):
        """Puts a card of this number into a reader."""
        (self.path / name / "card").write_text(str(card))

    def write(self, name, text):
        (self.path / name).write_text(text)

    def words(self, *words, go=True):
        """The words of a run. Words of the program alone go to all readers."""
        program = [sys.executable, "-m", "galliumtoad.batch", "script", "--rows=rows.csv"]
        names = [it.partition("=")[0] for it in words]
        if "--journal" not in names:
            program += ["--journal=journal"]
        is_run = not {"--status", "--done", "--again", "--look", "--check"} & {*names}
        is_own = "--journal" not in names and "--new" not in names
        if is_run and is_own and not self.is_created():
            program += ["--new"]
        if is_run and "--reader" not in names:
            program += self.readers
        return [*program, *(["--go"] if go and is_run else []), *words]

    def is_created(self):
        """Whether the journal is there, and no crash has cut its creation."""
        file = self.path / "journal"
        is_cut = (self.path / "journal-journal").exists()
        return file.exists() and (not file.is_file() or file.stat().st_size > 0 and not is_cut)

    def start(self, *words, go=True):
        return self.start_program(self.words(*words, go=go))

    def start_program(self, program, stdin=subprocess.DEVNULL):
        pipes = {"stdout": subprocess.PIPE, "stderr": subprocess.PIPE, "text": True}
        pipes["stdin"] = stdin
        return subprocess.Popen(
            program, cwd=self.path, env=self.environment, start_new_session=True, **pipes
        )

    def start_full(self, size, *words, **how):
        """Starts a run whose files have at most this number of bytes."""
        program = self.words(*words, **how)
        program[1:3] = ["-c", FULL.format(size)]
        return self.start_program(program)

    def run(self, *words, go=True):
        """Runs the program, in this process unless `is_apart` is set. Returns its status, output
        and errors."""
        program = self.words(*words, go=go)
        if not self.is_apart:
            return main_of(self, program[3:])
        run = self.start_program(program)
        out, error = ended(run)
        return run.returncode, out, error

    def create(self, id_tag=None, key=""):
        """Creates the journal, without a run."""
        from galliumtoad.batch.journal import Heading, create, place_of

        table = place_of(str(self.path / "rows.csv"))
        create(self.place, Heading(1, 1, id_tag, key, "00" * 16, table))

    def opened(self, rows, *more):
        """The journal, in this process, of a table with this number of rows."""
        from galliumtoad.batch.journal import Journal

        journal = Journal(self.place, *more)
        journal.sync([None] * rows)
        if not journal.only_looks:
            journal.start("")
        return journal

    def desk(self, rows):
        """A run of this number of rows without an operation, which has not begun."""
        self.run("--check")  # so that there is a module `smartcard`
        from galliumtoad.batch.desk import Desk

        given = argparse.Namespace(go=True, stop_after=1, reader=[], report=None)
        return Desk([[]] * rows, self.opened(rows), given)

    def asked(self, words, *values, of="journal"):
        """What the database of a journal answers. A SELECT writes nothing, also not at its end."""
        how = "ro" if words.startswith("SELECT") else "rwc"
        name = f"file:{self.path / of}?mode={how}"
        made = sqlite3.connect(name, 60, isolation_level=None, uri=True)
        with contextlib.closing(made):
            return made.execute(words, values).fetchall()

    def dump(self):
        """All texts in the journal."""
        with contextlib.closing(sqlite3.connect(self.path / "journal")) as made:
            return "\n".join(made.iterdump())

    def begun(self, word="begin"):
        """Waits until a row was begun, or has a step with another word."""
        wait_until(lambda: any(it.startswith(f"{word} ") for it in self.events()))

    def events(self):
        """The word and the row of each step in the journal, in their order. Its creation may not
        have ended: then it has no table."""
        try:
            steps = "SELECT word, number FROM log ORDER BY rowid"
            found = self.asked(steps) if (self.path / "journal").exists() else []
            return [f"{word} {row}" for word, row in found]
        except sqlite3.OperationalError as error:
            if "no such table" not in str(error):
                raise
            return []

    def add(self, *texts):
        """Adds steps to the journal, each with a word, a row, a time and maybe a note, as a run
        would that has ended since. What a person decides has the note `decided`."""
        from galliumtoad.batch.journal import Entry, sum_of

        for word, row, time, *more in (it.split(" ", 3) for it in texts):
            row, note, at = int(row), "".join(more), datetime.fromisoformat(time).timestamp()
            found = self.asked("SELECT * FROM rows WHERE number = ?", row)
            it = Entry(*found[0]) if found else Entry(row)
            it = it._replace(steps=it.steps + 1)
            states = {"begin": "begun", "card": "begun", "again": "free", "unused": "free"}
            it = it._replace(state=states.get(word, word), run="over")
            if word == "begin":
                digest, _, reader = note.partition(" ")
                it = it._replace(digest=digest, reader=reader, begun=at, ended=at, reason="")
            elif word == "card":
                it = it._replace(card=note)
                card = (note, row, at)
                self.asked("INSERT INTO cards VALUES (?, ?, ?, ?)", *card, sum_of(*card))
            else:
                it = it._replace(reason=note, decided=int(note == "decided"))
                it = it if it.decided else it._replace(ended=at)
            it = it.summed()
            self.asked(f"REPLACE INTO rows VALUES ({', '.join('?' * len(it))})", *it)
            line = (row, it.steps, at, "over", word, note)
            self.asked("INSERT INTO log VALUES (?, ?, ?, ?, ?, ?, ?)", *line, sum_of(*line))

    def to_decide(self):
        """The rows that the program lists, each with its word."""
        return listed(self.run("--status")[1])

    def decide(self):
        """Decides each undecided row by the contents of its cards."""
        words = []
        for row in self.to_decide():
            whole, _ = self.cards_of(row)
            assert whole in (0, 1)
            words.append(f"--{'done' if whole else 'again'}={row}")
        if words:
            self.run(*words)

    def finish(self, rows, *words):
        """Runs and decides until all rows are done, each whole on one card."""
        while (status := (found := self.run(*words, go=False))[0]) == 1:
            self.decide()
        assert status == 0, found
        assert [self.cards_of(row)[0] for row in range(1, rows + 1)] == [1] * rows

    def held(self):
        """The contents of each card, by the name of its file."""
        files = [it for it in self.path.glob("cards/*") if it.suffix == ""]
        return {it.name: json.loads(it.read_text()) for it in files}

    def cards_of(self, row, held=None):
        """Counts the cards with all values of a row, and those with some of them."""
        whole = {"24352": f"PERSON {row}".encode().hex(), "40758": f"{row:08x}", "80": "41" * 300}
        held = self.held() if held is None else held
        mine = [it for it in held.values() if it.get("24352") == whole["24352"]]
        return sum(whole.items() <= it.items() for it in mine), len(mine)


def main_of(room, words):
    """Runs the program in this process. Fails if it does not end in a minute."""
    out, error = io.StringIO(), io.StringIO()
    with pytest.MonkeyPatch.context() as patch:
        patch.chdir(room.path)
        patch.syspath_prepend(STANDIN)
        for name, it in room.environment.items():
            patch.setenv(name, it)
        import smartcard
        from galliumtoad.batch import main

        smartcard.begin(room.path)
        signal.signal(signal.SIGALRM, lambda *_: pytest.fail("the run does not end"))
        signal.alarm(60)
        try:
            with contextlib.redirect_stdout(out), contextlib.redirect_stderr(error):
                status = main(words)
        except SystemExit as end:
            status = end.code
        finally:
            signal.alarm(0)
    return status, out.getvalue(), error.getvalue()
