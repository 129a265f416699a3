"""A pcscd with readers of libgt_serial_reader.so, cards at pseudo terminals, and programs."""

import contextlib
import os
import re
import signal
import subprocess
import tempfile
import time
from pathlib import Path

TOP = Path(__file__).resolve().parent.parent.parent
BUILD = Path(os.environ.get("READER_BUILD", TOP / "bindings/c/build"))
TESTED = BUILD / "standin/libgt_serial_reader.so"
INSTALLED = BUILD / "libgt_serial_reader.so"
SELECT, SELECTED = "00A4040007A0000000031010", "6F098407A0000000031010"
TABLE = ["app A0000000031010", "object 5F20 4A4F45"]
EXAMPLES = TOP / "bindings/python/examples"
SECONDS = int(os.environ.get("READER_SECONDS", "60"))
# No card that works is so late on a busy machine. Where a test waits for a silent card: a shorter
# time, and a delay beyond it.
PATIENT, BRIEF, TOO_LATE = "slack=20000", "slack=2500", "9s"


class Wrong(AssertionError):
    """A test that fails."""


def await_that(what, is_so, seconds=SECONDS):
    """Waits until this is true."""
    until = time.monotonic() + seconds
    while not (it := is_so()):
        if time.monotonic() > until:
            raise Wrong(f"not within {seconds} s: {what() if callable(what) else what}")
        time.sleep(0.02)
    return it


class Room(contextlib.ExitStack):
    """A folder, and the programs that run in it, until the end of `with`."""

    def __init__(self):
        super().__init__()
        self.path = Path(self.enter_context(tempfile.TemporaryDirectory()))

    def start(self, words, out, err=subprocess.STDOUT, environment=()):
        """Starts a program, whose output goes to these files."""
        with open(out, "wb") as output:
            errors = err if err == subprocess.STDOUT else open(err, "wb")
            it = subprocess.Popen([str(word) for word in words], stdin=subprocess.DEVNULL,
                                  stdout=output, stderr=errors,
                                  env={**os.environ, **dict(environment)})
        self.callback(end, it)
        return it


def end(process, number=signal.SIGKILL):
    """Ends a program, and waits for that."""
    if process.poll() is None:
        process.send_signal(number)
    return process.wait(SECONDS)


class Card:
    """A card of galliumtoad.simulate at a pseudo terminal, which `tty`, a link, names: of these
    lines of a table, or its `own` class or program. `resets` are those that it has heard."""

    def __init__(self, room, name, atr="3B00", echo=True, faults=(), words=(), lines=TABLE, own=""):
        self.out, self.err = room.path / f"{name}.out", room.path / f"{name}.err"
        self.tty, files = room.path / name, [room.path / f"{name}.{it}" for it in ("tab", "faults")]
        for file, of in zip(files, (lines, faults)):
            file.write_text("".join(f"{line}\n" for line in of), encoding="utf-8")
        card = ["--table", files[0]]
        if own:
            card = ["--application" if ":" in own else "--program", own]
        card += ["--atr", atr] if atr else []
        self.process = room.start(
            ["/usr/bin/python3", "-u", "-m", "galliumtoad.simulate", "-v", "--pty",
             *card, "--faults", files[1], *([] if echo else ["--no-echo"]), *words],
            self.out, self.err, {"PYTHONPATH": f"{os.environ['PYTHONPATH']}:{EXAMPLES}"})
        name = await_that("a card", lambda: self.heard()[:1] or self.process.poll() is not None)
        if self.process.poll() is not None:
            raise Wrong(self.err.read_text(encoding="utf-8"))
        new = self.tty.with_suffix(".new")
        new.symlink_to(name[0])
        new.replace(self.tty)

    def said(self):
        return self.out.read_text(encoding="utf-8")

    def heard(self):
        text = self.said()
        return text[: text.rfind("\n") + 1].splitlines()

    @property
    def resets(self):
        return self.heard().count("reset")

    def struck(self):
        """Whether a fault has changed something."""
        return "fault at " in self.said()

    def end(self):
        # another card may get the same terminal
        self.tty.unlink()
        end(self.process)


class Pcscd:
    """A pcscd with these readers, each its name and its DEVICENAME. One that has to come up is in
    `names`, as pcscd names it."""

    def __init__(self, room, readers, library=TESTED, environment=(), options=()):
        self.room, self.log = room, room.path / "log"
        settings = room.path / "readers"
        settings.write_text("".join(
            f'FRIENDLYNAME "{name}"\nDEVICENAME "{device}"\nLIBPATH {library}\nCHANNELID {at}\n'
            for at, (name, device) in enumerate(readers)), encoding="utf-8")
        self.process = room.start(["pcscd", "--foreground", "--config", settings, *options],
                                  self.log, environment={**sanitizer(library), **dict(environment)})

    def said(self):
        return self.log.read_text(encoding="utf-8", errors="replace")

    def names(self):
        status, said = run(["gt_pcsc", "-l"])
        return [] if status else said.splitlines()

    def await_readers(self, count):
        """Waits for this number of readers. Returns their names."""
        def there():
            if self.process.poll() is not None:
                raise Wrong(f"pcscd has ended: {self.said()[-2000:]}")
            return len(found := self.names()) == count and found
        return await_that(f"{count} readers", there)

    def await_log(self, text):
        await_that(f"'{text}' in the log", lambda: text in self.said())

    def end(self, number=signal.SIGTERM):
        end(self.process, number)


def sanitizer(library):
    """What pcscd needs to load a library with the address sanitizer."""
    needs = subprocess.run(["ldd", library], capture_output=True, text=True, check=True).stdout
    found = re.search(r"=> (\S*libasan\S*)", needs)
    # pcscd itself frees some memory only by its end
    return {"LD_PRELOAD": found[1], "ASAN_OPTIONS": "detect_leaks=0"} if found else {}


def run(words, given="", seconds=SECONDS):
    """Runs a program of the build, or of the path. Returns its status, and both outputs."""
    program = BUILD / words[0]
    words = [str(program) if program.exists() else words[0], *map(str, words[1:])]
    try:
        done = subprocess.run(words, input=given, stdout=subprocess.PIPE, text=True,
                              stderr=subprocess.STDOUT, timeout=seconds, check=False)
    except subprocess.TimeoutExpired as late:
        raise Wrong(f"{words[0]} hangs after {(late.stdout or b'')[-300:]}") from late
    return done.returncode, done.stdout


def same(got, wanted, what=""):
    if got != wanted:
        raise Wrong(f"{what} {str(got)[:700]}, and not {str(wanted)[:700]}")
