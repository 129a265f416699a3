"""Tests the program `galliumtoad.simulate`: tables, a pseudo terminal, a tty, and vpcd, whose part
a socket plays here."""

import fcntl
import io
import os
import pty
import random
import select
import socket
import subprocess
import sys
import termios
import threading
import time
import tty

import pytest
from galliumtoad import Application, Card, OwnCard
from galliumtoad.cards import read_table
from galliumtoad.edits import block
from galliumtoad.faults import Faults, read
from galliumtoad.mistakes import Mistake
from galliumtoad.simulate import Simulator, main, ports, serve, session
from galliumtoad.simulate import vpcd as vpcd_module
from galliumtoad.simulate.vpcd import serve_vpcd
from galliumtoad.trials.fixed import trials
from waiting import AtPty, wait_until

AID = "A0000000031010"
TABLE = f"app {AID}\nobject 5F20 4A4F45\nlocked 50 -\n"
SELECT = bytes.fromhex(f"00A4040007{AID}")


@pytest.fixture
def files(tmp_path):
    """Writes a table and faults. Returns the words that name them."""
    def written(table=TABLE, faults=""):
        (tmp_path / "table").write_bytes(table.encode())
        (tmp_path / "faults").write_bytes(faults.encode())
        return ["--table", str(tmp_path / "table"), "--faults", str(tmp_path / "faults")]

    return written


@pytest.fixture
def at_pty(files, request):
    def start(table=TABLE, faults="", words=()):
        card = AtPty(*files(table, faults), *words)
        request.addfinalizer(card.end)
        return card

    return start


def test_a_line_at_t0(at_pty, tmp_path):
    """Each opening resets the card, and the trace is that of the line."""
    card = at_pty(faults="INS CA once, status 6F00", words=["-v"])
    for status in ("6f00", "6985"):
        card.open()
        assert card.talk(bytes.fromhex("00CA5F2006"), 2).hex() == status
        assert card.talk(SELECT[:5], 1).hex() == "a4"
        assert card.talk(SELECT[5:], 2).hex() == "610b"
        found = card.talk(bytes.fromhex("00CA5F2006"), 9)
        assert found.hex() == "ca5f20034a4f459000"
        assert card.talk(bytes.fromhex("00CA5F2006"), 1).hex() == "ca"  # the rest is not read
        card.close()
    struck = f"fault at command 1: {tmp_path}/faults:1: INS CA once, status 6F00"
    assert card.end()[0].splitlines()[:5] == ["reset", "< 3B00", "> 00CA5F2006", struck, "< 6F00"]


def test_a_line_at_t1(at_pty):
    card = at_pty(TABLE + "atr 3B800181\n", words=["--no-echo"])
    card.open("3B800181")
    command = block(0, 0, SELECT + b"\x00")
    assert card.talk(command, 17)[3:-1].hex() == "6f098407a00000000310109000"
    os.write(card.line, command[:7])  # and then it stops: the card asks for the block again
    assert card.read(4).hex() == "00920092"


@pytest.mark.parametrize(
    ("atr", "request_", "response"),
    [("3B800181", "FF01FE", "ff01fe"), ("3B80800101", "FF01FE", "ff01fe"),
     ("3B80800101", "FF00FF", "ff00ff"), ("3B800181", "FF1111FF", "ff1111ff"),
     ("3B800181", "FF11957B", "ff01fe"), ("3B800181", "FF00FF", ""), ("3B800181", "FF01FF", ""),
     ("3B800181", "FF817E", "")],
)
def test_pps(at_pty, atr, request_, response):
    card = at_pty(TABLE + f"atr {atr}\n")
    card.open(atr)
    assert card.talk(bytes.fromhex(request_), len(response) // 2).hex() == response
    assert card.read(1, 0.3) == b""
    if response == "ff01fe":
        assert card.talk(block(0, 0xC1, b"\x20"), 5) == block(0, 0xE1, b"\x20")
    if response == "ff00ff":
        assert card.talk(SELECT[:5], 1).hex() == "a4"


def test_an_echo_that_differs(at_pty):
    """The last character of the second header comes back with a wrong bit, and no other."""
    trial = next(it for it in trials() if it.name == "echo that differs")
    card = at_pty(faults=trial.faults)
    card.open()
    assert card.talk(SELECT[:5], 1).hex() == "a4" and card.talk(SELECT[5:], 2).hex() == "610b"
    put = bytes.fromhex("00DA00510141")
    os.write(card.line, put[:5])
    assert card.read(6).hex() == "00da005100da"
    assert card.talk(put[5:], 2).hex() == "9000"
    assert card.end()[0].count("wrong echo") == 1


def test_an_echo_of_data_that_differs(at_pty):
    """The first character of data comes back with a wrong bit, and no other."""
    trial = next(it for it in trials() if it.name == "echo of data that differs")
    card = at_pty(faults=trial.faults)
    card.open()
    assert card.talk(SELECT[:5], 1).hex() == "a4" and card.talk(SELECT[5:], 2).hex() == "610b"
    assert card.talk(bytes.fromhex("00DA005102"), 1).hex() == "da"
    os.write(card.line, b"\x41")
    assert card.read(1) == b"\x40"
    assert card.talk(b"\x41", 2).hex() == "9000"
    assert card.end()[0].count("wrong echo of data") == 1


def test_inverse_convention(at_pty):
    card = at_pty(TABLE + "atr 3F00\n")
    card.open("03FF")  # as a line in the direct convention shows it
    turned = bytes(int(f"{it:08b}"[::-1], 2) ^ 0xFF for it in SELECT[:5])
    assert card.talk(turned, 1) == bytes([int(f"{0xA4:08b}"[::-1], 2) ^ 0xFF])


@pytest.mark.parametrize("fault", ["mute", "power off"])
def test_silence_until_the_next_reset(at_pty, fault):
    card = at_pty(faults=f"command 1, {fault}")
    for is_gone in (True, False):
        card.open()
        assert card.talk(bytes.fromhex("00CA5F2006"), 0) == b""
        assert card.read(2, 0.5 if is_gone else 30).hex() == ("" if is_gone else "6985")
        card.close()


def test_a_tty(files):
    """The other end of a pseudo terminal stands for the terminal of a tty. If that closes, the
    program ends."""
    ours, theirs = pty.openpty()
    tty.setraw(theirs)
    words = [*files(), "--tty", os.ttyname(theirs), "--baud", "19200"]
    words = [sys.executable, "-m", "galliumtoad.simulate", *words]
    program = subprocess.Popen(words, stderr=subprocess.PIPE)
    found = b""
    while len(found) < 2 and select.select([ours], [], [], 60)[0]:
        found += os.read(ours, 2)
    assert found.hex() == "3b00"
    os.write(ours, SELECT[:5])
    assert os.read(ours, 1).hex() == "a4"
    os.close(theirs)
    os.close(ours)
    assert program.wait(60) == 1
    error = program.stderr.read().decode()
    assert error.count("\n") == 1 and "Traceback" not in error


@pytest.mark.parametrize(("atr", "parity"), [("3B00", 0), ("3F00", termios.PARODD)])
def test_characters_of_a_tty(monkeypatch, atr, parity):
    """Eight bits, two stop bits and the parity of the convention (ISO/IEC 7816-3, 7.2 and 8.1). A
    pseudo terminal keeps no parity, so this looks at what it was asked for."""
    _, theirs = pty.openpty()
    asked = []
    monkeypatch.setattr(ports.termios, "tcsetattr", lambda *words: asked.append(words[2]))
    of = Simulator(Card({bytes(5): {}}), bytes.fromhex(atr))
    monkeypatch.setattr(session.Session, "run", lambda _: of.is_over.set())
    serve.serve_tty(of, os.ttyname(theirs), 57600, "")
    [(_, _, bits, modes, *rates, _)] = asked
    wanted = termios.CS8 | termios.CREAD | termios.PARENB | termios.CSTOPB | parity
    assert bits & (wanted | termios.CSIZE | termios.PARODD) == wanted
    assert not modes & (termios.ICANON | termios.ECHO | termios.ISIG)
    assert rates == [termios.B57600] * 2


def test_a_tty_belongs_to_one_program(files):
    """It is refused while another program has it, and held until the end."""
    ours, theirs = pty.openpty()
    words = [sys.executable, "-m", "galliumtoad.simulate", *files(), "--tty", os.ttyname(theirs)]
    fcntl.flock(theirs, fcntl.LOCK_SH)
    done = subprocess.run(words, stderr=subprocess.PIPE, text=True, timeout=60)
    assert done.returncode == 1 and "Resource temporarily unavailable" in done.stderr
    fcntl.flock(theirs, fcntl.LOCK_UN)
    program = subprocess.Popen(words)
    assert os.read(ours, 1) == b"\x3b"
    with pytest.raises(BlockingIOError):
        fcntl.flock(theirs, fcntl.LOCK_EX | fcntl.LOCK_NB)
    program.kill()
    program.wait()


class AtTty:
    """A card at a tty in a thread, and this end of it. `bits` is a file with the signals of the
    line, as a driver returns them: a pseudo terminal has none."""

    def __init__(self, of, bits, monkeypatch):
        self.of = of
        self.bits = bits
        self.line, self.theirs = pty.openpty()
        tty.setraw(self.theirs)
        self.set()
        monkeypatch.setattr(ports.fcntl, "ioctl", lambda *_: bits.read_bytes())
        words = of, os.ttyname(self.theirs), 9600, "dsr"
        self.thread = threading.Thread(target=serve.serve_tty, args=words, daemon=True)
        self.thread.start()

    def set(self, *signals):
        made = self.bits.with_suffix(".new")
        made.write_bytes(sum(signals).to_bytes(4, sys.byteorder))
        made.rename(self.bits)
        time.sleep(0.1)

    def read(self, count, seconds=30):
        return AtPty.read(self, count, seconds)

    def is_answered(self, atr="3b00"):
        """Resets the card, which is silent meanwhile, and takes nothing."""
        self.set(termios.TIOCM_DSR)
        os.write(self.line, SELECT[:3])
        assert self.read(1, 0.3) == b""
        self.set()
        assert self.read(2).hex() == atr and self.read(1, 0.3) == b""

    def end(self):
        self.of.is_over.set()
        self.set(termios.TIOCM_DSR)
        self.set()
        self.thread.join(60)
        assert not self.thread.is_alive()


def test_a_reset_by_a_signal(tmp_path, monkeypatch):
    """One that is off holds no card in reset, nor does another signal."""
    it = AtTty(Simulator(Card({bytes.fromhex(AID): {}})), tmp_path / "bits", monkeypatch)
    it.set(termios.TIOCM_CTS | termios.TIOCM_CAR)
    it.set()
    assert it.read(1, 0.3) == b""
    for _ in range(2):
        it.is_answered()
        os.write(it.line, SELECT[:5])
        assert it.read(1).hex() == "a4"
        it.set(termios.TIOCM_CTS | termios.TIOCM_CAR)
        os.write(it.line, SELECT[5:])
        assert it.read(2).hex() == "610b"
        os.write(it.line, SELECT[:3])  # which the next reset drops
    it.end()


def test_an_answer_that_a_reset_overtakes(tmp_path, monkeypatch):
    """It is not sent, nor does it follow the answer to reset."""
    faults = Faults(read("command 1, delay 0.5s"))
    of = Simulator(Card({bytes.fromhex(AID): {}}), faults=faults)
    it = AtTty(of, tmp_path / "bits", monkeypatch)
    it.is_answered()
    os.write(it.line, bytes.fromhex("00CA5F2006"))
    it.set()
    it.set(termios.TIOCM_DSR)
    assert it.read(1, 1) == b""
    it.set()
    assert it.read(100, 0.5).hex() == "3b00"
    it.end()


class Waits(Application):
    """It works until a file is there."""

    def __init__(self, go):
        self.go = go

    def takes_data(self, header):
        return False

    def carry_out(self, command):
        wait_until(self.go.exists)
        return 0x9000, b""


def test_a_reset_while_an_application_works(tmp_path, monkeypatch):
    """The answer to reset comes when it has ended, in place of the answer to the command."""
    of = Simulator(OwnCard(Waits(tmp_path / "go")), bytes.fromhex("3B804001"))
    with of:
        it = AtTty(of, tmp_path / "bits", monkeypatch)
        it.set(termios.TIOCM_DSR)
        it.set()
        assert it.read(4).hex() == "3b804001"
        os.write(it.line, bytes.fromhex("8010000001"))
        assert it.read(2) == b"\x60\x60"
        it.set(termios.TIOCM_DSR)
        it.set()
        it.read(100, 0.3)
        assert it.read(1, 0.5) == b""
        (tmp_path / "go").touch()
        assert it.read(100, 1).hex() == "3b804001"
        os.write(it.line, bytes.fromhex("8010000001"))
        assert it.read(2).hex() == "9000"
        it.end()


def test_no_character_stays_in_a_pseudo_terminal(at_pty):
    """Neither one that the terminal has not read, nor one that the card has not."""
    card = at_pty().open()
    for sent in (b"", SELECT[:3], SELECT[:5] + SELECT):
        os.write(card.line, sent)
        card.read(1, 0.3)
        card.close()
        card.open()
        assert card.read(1, 0.3) == b""
        assert card.talk(SELECT[:5], 1).hex() == "a4"


@pytest.mark.parametrize(("atr", "has_passed"), [("3B8081214F6F", False), ("3B8081214060", True)])
def test_the_time_between_characters_of_a_block(at_pty, atr, has_passed):
    """After CWT it has stopped: 11 + 2^CWI etu, 3.4 s with CWI 15, and 1.3 ms with 0 (ISO/IEC
    7816-3, 11.4.3). The card waits for 0.2 s longer."""
    card = at_pty(TABLE + f"atr {atr}\n", words=["--no-echo"]).open(atr)
    command = block(0, 0, SELECT + b"\x00")
    os.write(card.line, command[:7])
    assert card.read(4, 1).hex() == "00820082" * has_passed
    os.write(card.line, command if has_passed else command[7:])
    assert card.read(17)[3:-1].hex() == "6f098407a00000000310109000"


class Vpcd:
    """What vpcd does with a card: messages with their lengths, over a socket."""

    def __init__(self, faults="", of=None):
        self.server = socket.create_server(("localhost", 0))
        self.server.settimeout(60)
        found = Faults(read(faults))
        self.struck = []
        card = Card({bytes.fromhex(AID): {0x5F20: b"JOE"}})
        self.simulator = of or Simulator(card, faults=found)
        found.tell = self.struck.append
        address = f"localhost:{self.server.getsockname()[1]}"
        words = {"args": (self.simulator, address), "daemon": True}
        self.thread = threading.Thread(target=serve_vpcd, **words)
        self.thread.start()
        self.accept()

    def accept(self):
        self.line = self.server.accept()[0]
        self.line.settimeout(60)

    def say(self, data):
        self.line.sendall(len(data).to_bytes(2, "big") + data)

    def receive(self, count):
        """This many bytes, or fewer if the connection has ended. MSG_WAITALL would not wait, as
        the line has a limit of time."""
        found = b""
        while len(found) < count and (more := self.line.recv(count - len(found))):
            found += more
        return found

    def ask(self, data):
        """The answer, or None if the connection has ended."""
        self.say(data)
        size = self.receive(2)
        return self.receive(int.from_bytes(size, "big")) if size else None

    def end(self):
        self.simulator.is_over.set()
        self.line.close()
        self.server.close()
        self.thread.join()


def test_an_answer_longer_than_a_message_is_cut():
    faults = [f"command 1, add {'5A' * 35000}"] * 2
    it = Vpcd(of=Simulator(Card({bytes(5): {}}), faults=Faults(read("\n".join(faults)))))
    it.say(bytes(5))
    assert it.receive(2) == b"\xFF\xFF" and it.receive(65535) == b"\x5A" * 65535
    it.end()


@pytest.fixture
def vpcd(request):
    def start(*words):
        it = Vpcd(*words)
        request.addfinalizer(it.end)
        return it

    return start


def test_vpcd(vpcd):
    it = vpcd("")
    it.say(b"\x01")
    assert it.ask(b"\x04").hex() == "3b00"
    assert it.ask(SELECT).hex() == "610b"
    assert it.ask(bytes.fromhex("00CA5F2000")).hex() == "5f20034a4f459000"
    assert it.ask(bytes.fromhex("00CA")).hex() == "6700"
    assert it.ask(bytes.fromhex("006A000000")).hex() == "6d00"
    it.say(b"\x02")
    assert it.ask(bytes.fromhex("00CA5F2000")).hex() == "6985"
    it.ask(SELECT)
    it.say(b"\x00")
    assert it.ask(bytes.fromhex("00CA5F2000")).hex() == "6985"


@pytest.mark.parametrize(("fault", "least", "most"), [("mute", 2, 60), ("power off", 0, 50)])
def test_vpcd_loses_the_card(vpcd, monkeypatch, fault, least, most):
    """A mute card leaves later than one without power. Both come again, reset."""
    monkeypatch.setattr(vpcd_module, "MUTE_FOR", least or 60.0)
    it = vpcd(f"command 2, {fault}")
    it.ask(SELECT)
    begun = time.monotonic()
    assert it.ask(bytes.fromhex("00CA5F2000")) is None
    assert least <= time.monotonic() - begun < most
    it.line.close()
    it.accept()
    assert it.ask(bytes.fromhex("00CA5F2000")).hex() == "6985" and len(it.struck) == 1


def test_a_command_that_the_connection_cuts_is_not_carried_out(vpcd):
    it = vpcd("command 1, reset")
    it.line.sendall(b"\x00\x0D" + SELECT)
    it.line.close()
    it.accept()
    assert it.ask(b"\x04").hex() == "3b00" and it.struck == []


def test_a_reset_by_a_fault_at_vpcd(vpcd):
    """It forgets what was selected; vpcd has no message for it."""
    it = vpcd("command 2, reset")
    answers = [it.ask(each).hex() for each in (SELECT, bytes.fromhex("00CA5F2000"), SELECT)]
    assert answers == ["610b", "6985", "610b"] and len(it.struck) == 1


@pytest.mark.parametrize("words", [["--seed", "\u0661"], ["--seed", "1_0"], ["--baud", " 9600"]])
def test_a_number_of_other_characters_is_refused(files, monkeypatch, words):
    monkeypatch.setattr(serve, "serve_pty", lambda *_: None)
    with pytest.raises(SystemExit):
        main(["--pty", *files(), *words])


def test_the_seed(files, monkeypatch):
    """It is that of the faults, and 0 if none is given."""
    found = []
    monkeypatch.setattr(serve, "serve_pty", lambda it, *_: found.append(it.faults.chance()))
    for seed in (["--seed", "7"], []):
        assert main(["--pty", *files(faults="p 0.5, mute"), *seed]) == 0
    assert found == [random.Random(7).random(), random.Random(0).random()]


def test_a_delay(vpcd):
    it = vpcd("command 1, delay 0.5s")
    begun = time.monotonic()
    assert it.ask(SELECT).hex() == "610b" and time.monotonic() - begun >= 0.5


@pytest.mark.parametrize(
    ("table", "line"),
    [("object 50 AA", 1), (f"app A0\napp {AID}", 1), (f"app {AID}\napp {AID}", 2),
     ("\n# a\nnonsense", 3), (f"app {AID}\nobject 50", 2), (f"app {AID}\nobject 50 A", 2),
     ("atr 3B00\natr 3B00", 2), (f"app {AID}\nobject 5F 00\nobject 50 00", 2),
     (f"app {AID}\nobject 0050 00", 2), (f"app {AID}\nobject 50 00\x0b", 2),
     (f"app {AID}\nobject\t50 00", 2), (f"app {AID}\n # a", 2), ("atr -", 1)],
)
def test_a_wrong_table(tmp_path, table, line):
    (tmp_path / "table").write_text(table)
    with pytest.raises(Mistake, match=f"table: line {line}: "):
        read_table(str(tmp_path / "table"))


def test_a_table(tmp_path):
    (tmp_path / "table").write_text(f"# cards\n\n{TABLE}atr 3B800181\n")
    card, atr = read_table(str(tmp_path / "table"))
    found = [(it.tag, it.value, it.is_locked) for it in card.entries(bytes.fromhex(AID))]
    assert found == [(0x5F20, b"JOE", False), (0x50, b"", True)] and atr.hex() == "3b800181"


def test_an_object_that_is_there_is_replaced_and_unlocked(tmp_path):
    lines = f"#\xe9\napp {AID}\nlocked 5F20 41\r\nlocked 50 42\n \nobject 5F20 -"
    (tmp_path / "table").write_text(lines, "latin-1")
    card, _ = read_table(str(tmp_path / "table"))
    found = [(it.tag, it.value, it.is_locked) for it in card.entries(bytes.fromhex(AID))]
    assert found == [(0x5F20, b"", False), (0x50, b"B", True)]


def test_a_name_that_the_output_lacks_is_no_end_of_the_line(monkeypatch):
    """As that of a file of faults."""
    monkeypatch.setattr(sys, "stdout", io.TextIOWrapper(io.BytesIO(), "ascii"))
    with pytest.raises(Mistake, match="^standard output: 'ascii' codec can't encode"):
        Simulator(Card({bytes(5): {}})).tell("fault at command 1: f\u00fcr:1: ..")


def test_a_fault_of_a_file_whose_name_is_not_utf_8(files, tmp_path):
    """It strikes, and its line shows the name."""
    (tmp_path / "\udcff").write_text("command 1, status 6F00")
    card = AtPty(*files()[:2], "--faults", tmp_path / "\udcff").open()
    assert card.talk(bytes.fromhex("00CA5F2006"), 2).hex() == "6f00"
    card.close()
    wanted = f"fault at command 1: {tmp_path}/\\udcff:1: command 1, status 6F00\n"
    assert card.end() == (wanted, "")


def test_files_of_another_system(files, monkeypatch):
    """CR before LF. A byte order mark may precede faults; no line of a script begins with one."""
    table = TABLE
    faults = "\uFEFFcommand 1, mute\nafter 2, mute\n"
    found = []
    monkeypatch.setattr(serve, "serve_pty", lambda it, *_: found.append(it))
    assert main([*files(*(it.replace("\n", "\r\n") for it in (table, faults))), "--pty"]) == 0
    assert [it.values for it in found[0].faults.all] == [[], []]


@pytest.mark.parametrize("words", [["-v"], []])
def test_the_program_ends_with_the_reader_of_its_output(at_pty, words):
    """It can print no dialogue, and no fault. That is not the end of the line."""
    card = at_pty(faults="command 1, status 6F00", words=words)
    card.program.stdout.close()
    os.write(card.open("").line, bytes.fromhex("00CA5F2006"))
    assert card.program.wait(60)
    card.said = card.program.stderr.read()
    assert card.said.startswith("standard output: [Errno 32] Broken pipe\n")


@pytest.mark.parametrize(
    ("words", "faults", "text"),
    [(["--vpcd"], "after 1, mute\nafter 2, lrc", "faults:2: after 2, lrc: this needs a line at"),
     (["--vpcd"], "command 1, byte 3 drop", "needs a line, and vpcd has none"),
     (["--pty"], "command 1, lrc", "needs a line at T=1, and this line has none"),
     (["--pty", "--no-echo"], "command 1, wrong echo", "needs an echo, and this line has none"),
     (["--pty", "--atr", "3B800181"], "command 1, nulls 3", "needs a line at T=0"),
     (["--pty", "--atr", "3B800E8E"], "", "a line needs an answer to reset that"),
     (["--pty"], "nonsense", "faults:1: not WHEN, WHAT of a fault: nonsense\nWHEN is one of: comm"),
     (["--pty"], "non\x9bsense", "not WHEN, WHAT of a fault: non\\x9bsense\nWHEN is one of: "),
     (["--pty"], "after 1, nonsense", "after 1, nonsense\nWHAT is one of: ")],
)
def test_errors_before_anything_runs(files, capsys, monkeypatch, words, faults, text):
    monkeypatch.setattr(serve.time, "sleep", lambda _: pytest.fail("it serves a line"))
    monkeypatch.setattr(vpcd_module, "connected", lambda _: pytest.fail("it serves vpcd"))
    assert main([*files(faults=faults), *words]) == 2
    out, error = capsys.readouterr()
    assert text in error and out == ""


def test_a_reader_that_is_not_there_is_named_once(capsys, monkeypatch):
    """And each time that vpcd has asked for the card, it says so."""
    monkeypatch.setattr(vpcd_module, "AWAY_FOR", 0.01)
    of = Simulator(Card({bytes.fromhex(AID): {}}))
    with socket.socket() as server:
        server.bind(("localhost", 0))
        address = f"localhost:{server.getsockname()[1]}"
        thread = threading.Thread(target=serve_vpcd, args=(of, address))
        thread.start()
        time.sleep(0.3)
        server.listen()
        server.settimeout(60)
        for message in (b"", b"\0\1\4", b"\0\1\0", b"", b"\0\1\4"):
            with server.accept()[0] as line:
                line.sendall(message)
                if message == b"\0\1\4":
                    assert line.recv(2) == b"\0\2"
        connected = server.accept()[0]
    of.is_over.set()
    thread.join()
    connected.close()
    first, *lines = capsys.readouterr().err.splitlines()
    assert first.startswith(f"waiting for vpcd at {address}: ")
    assert lines == [f"the card is in the reader of vpcd at {address}"] * 3


def test_a_card_that_vpcd_does_not_ask_for_is_not_in_the_reader(capsys):
    """As while another simulation has the port: TCP connects, and vpcd is silent. The line says
    what it waits for."""
    it = Vpcd()
    address = f"localhost:{it.server.getsockname()[1]}"
    said = ""
    waits = f"waiting for vpcd at {address}: it asks for no card, as while it has one\n"
    until = time.monotonic() + 20
    while not said and time.monotonic() < until:
        time.sleep(0.05)
        said = capsys.readouterr().err
    assert said == waits
    assert it.ask(b"\x04").hex() == "3b00"
    assert capsys.readouterr().err == f"the card is in the reader of vpcd at {address}\n"
    it.end()
    assert capsys.readouterr().err == ""


def test_a_connection_with_itself_is_none(monkeypatch):
    """Where nothing listens, TCP may connect a port that it chose with that very port."""
    made = socket.socket()
    made.bind(("localhost", 0))
    made.connect(made.getsockname())
    monkeypatch.setattr(vpcd_module.socket, "create_connection", lambda _: made)
    with pytest.raises(ConnectionRefusedError, match="^nothing listens there$"):
        vpcd_module.connected("localhost:1")
    assert made.fileno() == -1


def test_files_and_ports_that_are_missing(tmp_path, capsys):
    table = str(tmp_path / "table")
    assert main(["--table", table, "--pty"]) == 2 and "No such file" in capsys.readouterr().err
    (tmp_path / "table").write_text(TABLE)
    assert main(["--table", table, "--pty", "--faults", "/none"]) == 2
    assert main(["--table", table, "--tty", "/none"]) == 1
    assert capsys.readouterr().err.count("No such file") == 2
    assert main(["--table", table, "--tty", table]) == 1
    assert capsys.readouterr().err == f"[Errno 25] Inappropriate ioctl for device: '{table}'\n"
    ports = ("localhost", "localhost:", "localhost:vpcd", "localhost:\u00b2", "localhost:65536")
    for address in (*ports, f"localhost:{2**64}", "localhost:-1", "a" * 70 + ":1"):
        assert main(["--table", table, "--vpcd", address]) == 2
        assert f"HOST:PORT is expected: {address}: " in capsys.readouterr().err
    for port in ("\u0661", "1_0", " 1"):
        with pytest.raises(Mistake):
            vpcd_module.connected(f"localhost:{port}")
