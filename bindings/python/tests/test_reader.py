"""Tests batches of cards over a private pcscd whose readers change the cards. Runs are killed at
random, have a full disk or a cut journal, or run twice at once. Some cards are pulled at one of
their commands, are inserted again later, or have another profile. The contents of the removed cards
decide the result, not the journal.

The environment may set READER_CARDS, READER_KILLS and READERS, the numbers of each."""

import os
import random
import shutil
import signal
import subprocess
import sys
import time
from collections import Counter
from pathlib import Path

import pytest
from room import Room
from waiting import wait_until

HERE = Path(__file__).resolve().parent
C = HERE.parents[1] / "c"
CARDS = int(os.environ.get("READER_CARDS", 500))
KILLS = int(os.environ.get("READER_KILLS", 20))
READERS = int(os.environ.get("READERS", 4))
# pcscd has its socket at a fixed place. In a private mount namespace that is a folder of the test.
PRIVATE = ["sh", "-c", 'mkdir -p /run/pcscd && mount --bind "$0" /run/pcscd && exec "$@"']


def compiled(folder):
    """Builds the virtual reader that records the contents of its cards."""
    library, made = folder / "libgalliumtoad.a", folder / "kept_reader.so"
    subprocess.run(["make", "-s", f"BUILD={folder}", library], cwd=C, check=True)
    flags = subprocess.run(
        ["pkg-config", "--cflags", "libpcsclite"], capture_output=True, text=True, check=True
    )
    warnings = ["-Wall", "-Wextra", "-Wpedantic", "-Wshadow", "-Wconversion", "-Werror"]
    program = ["cc", "-std=c99", *warnings, *flags.stdout.split()]
    program += ["-Iinclude", "-Iexamples", "-Itools", "-fPIC", "-shared", "-Wl,-z,defs", "-o", made]
    program += [HERE / "reader" / "kept_reader.c", "examples/table.c", "tools/text.c", library]
    subprocess.run(program, cwd=C, check=True)
    return made


def missing():
    """What is missing on this machine for the readers, or None."""
    for name in ("pcscd", "unshare", "pkg-config", "make", "cc"):
        if not shutil.which(name):
            return f"there is no {name}"
    if subprocess.run(["pkg-config", "--exists", "libpcsclite"]).returncode:
        return "there is no libpcsclite with its headers"
    if subprocess.run([sys.executable, "-c", "import smartcard"]).returncode:
        return "there is no pyscard"
    return None if namespace() else "a namespace of its own can't be had"


def namespace():
    """The words that run a program in a mount namespace, with or without the rights of root."""
    for words in (["unshare", "-m"], ["unshare", "-rm"]):
        tried = subprocess.run([*words, *PRIVATE, "/tmp", "true"], stderr=subprocess.DEVNULL)
        if tried.returncode == 0:
            return words
    return None


class Desk(Room):
    """A folder with a pcscd, readers, a table and a script, and a program that changes the
    cards."""

    def __init__(self, path, rows, readers):
        super().__init__(path, rows, 0)
        self.rows, made, kept, self.is_apart = rows, compiled(path), path / "kept", True
        kept.touch()
        (path / "run").mkdir()
        self.names = [f"Slot{at} of {os.getpid()} {at:02X} 00" for at in range(readers)]
        self.readers = [f"--reader=Slot{at}" for at in range(readers)]
        with open(path / "reader.conf", "w") as file:
            for at in range(readers):
                # the file has to exist when the reader starts
                (path / f"card{at}").write_text("app A0000000999999\n")
                file.write(f'FRIENDLYNAME "Slot{at} of {os.getpid()}"\n')
                file.write(f"DEVICENAME {path}/card{at}\nLIBPATH {made}\nCHANNELID {at}\n")
        self.environment = dict(
            os.environ, KEPT=str(kept), PCSCLITE_CSOCK_NAME=str(path / "run" / "pcscd.comm")
        )
        program = [*namespace(), *PRIVATE, path / "run"]
        program += ["pcscd", "--foreground", "--config", path / "reader.conf"]
        with open(path / "pcscd.log", "w") as log:
            self.pcscd = subprocess.Popen(
                program, stdout=log, stderr=log, stdin=subprocess.DEVNULL, env=self.environment
            )
        self.await_readers(readers)
        self.feeder = subprocess.Popen(
            [sys.executable, HERE / "reader" / "feed.py", path, str(readers)],
            env=self.environment,
            text=True,
            stdin=subprocess.PIPE,
            stdout=subprocess.PIPE,
        )

    def await_readers(self, readers):
        asks = "from smartcard.System import readers; print(len(readers()))"
        how = {"env": self.environment, "text": True, "capture_output": True}

        def are_there():
            assert self.pcscd.poll() is None, (self.path / "pcscd.log").read_text()[-2000:]
            return subprocess.run([sys.executable, "-c", asks], **how).stdout == f"{readers}\n"

        wait_until(are_there)

    def change(self):
        """Waits until all cards are removed from the readers."""
        self.feeder.stdin.write("\n")
        self.feeder.stdin.flush()
        assert self.feeder.stdout.readline() == "\n"

    def close(self):
        """Stops all programs. Returns the numbers of cards, of those pulled, and of those inserted
        again."""
        counts = self.feeder.communicate()[0] if self.feeder.returncode is None else ""
        self.pcscd.terminate()
        self.pcscd.wait()
        return [int(it) for it in counts.split()]

    def held(self):
        """Counts the cards with all values of each row. A card that was inserted again counts as it
        is now. No card has values of two rows."""
        whole, cards = Counter(), {}
        for at, line in enumerate((self.path / "kept").read_text().splitlines()):
            values = dict(it.split("=") for it in line.split()[1:])
            cards[values.get("9F7F", at)] = values
        for values in cards.values():
            name, code = bytes.fromhex(values.get("5F20", "")).decode(), values.get("9F36")
            if name:
                row = int(name.removeprefix("PERSON "))
                whole[row] += (code, values.get("50")) == (f"{row:08X}", "41" * 300)
                assert code in (None, f"{row:08X}"), values
        return whole

    def wait_for_rows(self, runs, part, at_random):
        """Waits until these runs have done a random part of the rows that are left, at most
        `part`."""
        end = self.done() + at_random.random() * part * (self.rows - self.done())
        while self.done() < end and any(it.poll() is None for it in runs):
            time.sleep(0.02)
        time.sleep(at_random.uniform(0, 0.05))

    def done(self):
        return self.asked("SELECT count(*) FROM rows WHERE state = 'done'")[0][0]

    def decide(self):
        """Decides each undecided row by the contents of the cards."""
        left = self.to_decide()
        if left:
            self.change()
            whole = self.held()
            words = [f"--{'done' if whole[it] else 'again'}={it}" for it in left]
            assert self.run(*words)[0] in (0, 1)

    def cut(self, at_random):
        """Cuts the last step in the database's log, like a crash during a write."""
        log = self.path / "journal-wal"
        data = log.read_bytes() if log.exists() else b""
        if len(data) > 4096 and self.events()[-1].split()[0] not in ("begin", "card"):
            log.write_bytes(data[: len(data) - at_random.randrange(1, 4096)])
        elif data:
            log.write_bytes(data + data[-at_random.randrange(1, 4096) :])


@pytest.fixture
def desk(tmp_path):
    made = Desk(tmp_path, CARDS, READERS)
    yield made
    made.close()


@pytest.mark.skipif(missing() is not None, reason=str(missing()))
def test_over_a_pcscd(desk):
    at_random, kills, begun = random.Random(11), 0, time.monotonic()
    desk.create(0x9F7F)
    last = f"{CARDS:,} of {CARDS:,} rows done, 0 to decide\n"
    outs, status = [], ""
    while status != last:
        kind = at_random.choice(["one"] * 8 + ["full", "two", "same"]) if kills < KILLS else "one"
        if kind == "full":
            size = (desk.path / "journal").stat().st_size + at_random.randrange(1, 200000)
            runs = [desk.start_full(size, go=False)]
        elif kind == "two":
            runs = [desk.start(*it, go=False) for it in (desk.readers[::2], desk.readers[1::2])]
        else:
            runs = [desk.start(go=False) for _ in range(2 if kind == "same" else 1)]
        if kills < KILLS:
            desk.wait_for_rows(runs, 2 / (KILLS - kills + 1), at_random)
            kills += any(it.poll() is None for it in runs)
            for run in runs:
                if run.poll() is None:
                    os.killpg(run.pid, signal.SIGKILL)
        for run in runs:
            out, error = run.communicate(timeout=3000)
            outs += [*out.splitlines(), *error.splitlines()]
        if kills < KILLS and at_random.random() < 0.25:
            desk.cut(at_random)
        if kills % 8 == 0 or kills >= KILLS:
            desk.decide()
            status = desk.run("--status")[1]
            print(f"{time.monotonic() - begun:6.0f} s, {kills} kills: {status}", end="", flush=True)
    desk.change()
    cards, pulled, again = desk.close()
    whole = desk.held()
    refused = sum(" has row " in it for it in outs)
    print(f"{cards} cards, {pulled} pulled, {again} inserted again, {refused} times refused")
    assert whole == Counter(range(1, CARDS + 1)) and kills == KILLS
    assert min(pulled, again, refused) > 0  # on a busy machine few cards are
