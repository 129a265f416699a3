"""A PostgreSQL server for tests of batches: in a folder of its own, with a socket there."""

import contextlib
import glob
import itertools
import os
import shutil
import signal
import subprocess
import sys
import tempfile
import time
from pathlib import Path

from room import Room
from waiting import wait_until

OWNER = "postgres"  # root may not run a server


def missing():
    """What is missing on this machine for a server, or None."""
    if not programs():
        return "there is no initdb"
    asks = [sys.executable, "-c", "import psycopg2"]
    if subprocess.run(asks, stderr=subprocess.DEVNULL).returncode:
        return "there is no module psycopg2"
    return None


def programs():
    """The folder of the newest server's programs, or None."""
    found = glob.glob("/usr/lib/postgresql/*/bin/initdb")
    return max((Path(it).parent for it in found), key=lambda it: int(it.parent.name), default=None)


class Server:
    """A server. Each `database` is a new one."""

    def __init__(self, *settings):
        # the path of a socket is short
        self.folder = Path(tempfile.mkdtemp(prefix="gt-"))
        self.folder.chmod(0o700)
        self.names = itertools.count(1)
        self.as_owner = []
        if os.getuid() == 0:
            shutil.chown(self.folder, OWNER, OWNER)
            self.as_owner = ["setpriv", f"--reuid={OWNER}", f"--regid={OWNER}", "--clear-groups"]
        self.settings, self.program = settings, None
        self.run("initdb", "-D", self.folder / "data", "-U", "gt", "--auth=trust", "-N",
                 "--data-checksums", "--locale=C.UTF-8", "-E", "UTF8")
        self.start()

    def run(self, name, *words):
        program = [*self.as_owner, programs() / name, *words]
        done = subprocess.run(program, cwd="/", capture_output=True, text=True)
        assert done.returncode == 0, done.stderr

    def start(self):
        """Starts the server. What is left of a killed one hinders it for a moment."""
        wait_until(self.has_started)

    def has_started(self):
        import psycopg2

        words = ["-D", self.folder / "data", "-k", self.folder]
        for it in ("listen_addresses=", "max_connections=100", *self.settings):
            words += ["-c", it]
        with open(self.folder / "log", "a") as log:
            self.program = subprocess.Popen([*self.as_owner, programs() / "postgres", *words],
                                            cwd="/", stdout=log, stderr=log,
                                            stdin=subprocess.DEVNULL)
        while self.program.poll() is None:
            with contextlib.suppress(psycopg2.OperationalError):
                psycopg2.connect(self.url("postgres")).close()
                return True
            time.sleep(0.02)
        return False

    def kill(self, how=signal.SIGKILL):
        """Ends the server and waits for it. Its other processes notice that."""
        self.program.send_signal(how)
        self.program.wait()

    def url(self, name):
        return f"postgresql:///{name}?host={self.folder}&user=gt"

    def asked(self, name, words, *values):
        """What a database answers."""
        import psycopg2

        with contextlib.closing(psycopg2.connect(self.url(name))) as made:
            made.autocommit = True
            with made.cursor() as cursor:
                cursor.execute(words.replace("?", "%s"), values or None)
                return cursor.fetchall() if cursor.description else []

    def database(self):
        """Creates a database, and returns its name."""
        name = f"batch{next(self.names)}"
        self.asked("postgres", f"CREATE DATABASE {name}")
        return name

    def close(self):
        if self.program.poll() is None:
            self.kill(signal.SIGQUIT)
        shutil.rmtree(self.folder, ignore_errors=True)


class ServerRoom(Room):
    """A room whose journal is on a server."""

    def __init__(self, server, *words, **more):
        super().__init__(*words, **more)
        self.server, self.name = server, server.database()
        self.place = server.url(self.name)

    def words(self, *words, go=True):
        names = [it.partition("=")[0] for it in words]
        journal = [] if "--journal" in names else [f"--journal={self.place}"]
        asks = {"--status", "--done", "--again", "--look", "--check", "--row", "--export"}
        is_run = not asks & {*names}
        if is_run and "--new" not in names and not self.is_created():
            journal += ["--new"]
        return super().words(*words, *journal, go=go)

    def create(self, id_tag=None, key=""):
        from galliumtoad.batch.journal import Heading, create

        create(self.place, Heading(1, 1, id_tag, key, "00" * 16, "rows.csv"))

    def is_created(self):
        words = "SELECT count(*) FROM pg_tables WHERE tablename = 'batch'"
        return self.asked(words) == [(1,)]

    def asked(self, words, *values, of=None):
        return self.server.asked(self.name, words, *values)

    def events(self):
        import psycopg2

        with contextlib.suppress(psycopg2.Error):
            found = self.asked("SELECT word, number FROM log ORDER BY at, number, step")
            return [f"{word} {row}" for word, row in found]
        return []

    def dump(self):
        program = [programs() / "pg_dump", "--inserts", self.place]
        return subprocess.run(program, capture_output=True, text=True, check=True).stdout
